// Eigen: triplets to columns, then the pattern's analysis (elimination tree and column counts, of which it keeps the
// sums). It has no postorder and no row counts, and walks every row of the factor.
extern "C" {
#include "sides.h"
}
#include <Eigen/Sparse>
#include <vector>

namespace {
typedef Eigen::SparseMatrix<float, Eigen::ColMajor, int> matrix;

struct opened : Eigen::SimplicialLLT<matrix, Eigen::Upper, Eigen::NaturalOrdering<int>> {
    const Eigen::VectorXi &parents() const { return m_parent; }
    const Eigen::VectorXi &counts() const { return m_nonZerosPerCol; }
};

std::vector<Eigen::Triplet<float>> triplets;
opened *found;
uint32_t order;

void prepare(const pattern *p) {
    order = p->order;
    triplets.clear();
    for (uint32_t v = 0; v < p->order; v++) triplets.emplace_back(v, v, 1.0f);
    for (size_t k = 0; k < p->pairs; k++) {
        uint32_t i = p->pair[k][0], j = p->pair[k][1];
        triplets.emplace_back((i < j ? i : j) - 1, (i < j ? j : i) - 1, 1.0f);
    }
    found = nullptr;
}

void analyse() {
    delete found;
    matrix upper((int)order, (int)order);
    upper.setFromTriplets(triplets.begin(), triplets.end());
    found = new opened;
    found->analyzePattern(upper);
}

void answer(answers *a) {
    a->has_places = a->has_rows = 0;
    for (uint32_t v = 0; v < order; v++) {
        a->parent[v] = (uint32_t)(found->parents()[v] + 1);
        a->columns[v] = (uint32_t)found->counts()[v] + 1;
    }
}

void finish() {
    delete found;
    found = nullptr;
}
} // namespace

extern "C" {
extern const side eigen_side = {"Eigen", prepare, analyse, answer, finish};
}
