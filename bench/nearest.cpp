// Nearest vertices by a library's tree, or by a plain scan, of the same meshes and points as
// nearest.sh's program: nearest <scan, rtree or kdtree> <shape> <2 or 3> <rounds>.
// A round builds the tree and looks up 10,000 points. Prints the sum of the nearest vertices' numbers;
// of equally near vertices a library may take any.
#include <array>
#include <cstdint>
#include <cstdio>
#include <cstdlib>
#include <string>
#include <vector>

#ifdef HAS_BOOST
#include <boost/geometry.hpp>
#include <boost/geometry/index/rtree.hpp>
#endif
#ifdef HAS_NANOFLANN
#include <nanoflann.hpp>
#endif

constexpr std::uint64_t COUNT = 10000;

static std::uint64_t next(std::uint64_t seed) {
    return seed * 6364136223846793005u + 1442695040888963407u;
}

static std::int64_t below(std::uint64_t seed, std::uint64_t bound) {
    return static_cast<std::int64_t>((seed >> 33) % bound);
}

static std::int64_t coordinate(const std::string &shape, int dimensions, std::uint64_t v, int i, std::uint64_t seed) {
    if (shape == "lattice") {
        std::uint64_t first = dimensions == 2 ? 100 : 25, second = dimensions == 2 ? 100 : 20;
        std::uint64_t place = i == 0 ? v % first : i == 1 ? v / first % second : v / first / second;
        return static_cast<std::int64_t>(place % 10000) * 1000000;
    }
    if (shape == "cloud") return below(seed, 1000000000);
    if (shape == "surface") return below(seed, i + 1 == dimensions ? 1000 : 1000000000);
    return (v % 2 == 0 ? 0 : 100000000000) + below(seed, 1000000);
}

template <int D> using Points = std::vector<std::array<std::int64_t, D>>;

template <int D> static Points<D> points(const std::string &shape, bool is_query, std::uint64_t seed) {
    Points<D> made(COUNT);
    for (std::uint64_t v = 0; v < COUNT; v++) {
        for (int i = 0; i < D; i++) {
            seed = next(seed);
            made[v][i] = is_query && shape == "lattice" ? below(seed, D == 2 ? 99000000 : 19000000) : coordinate(shape, D, v, i, seed);
        }
    }
    return made;
}

template <int D> static std::uint64_t scan(const Points<D> &mesh, const Points<D> &queries) {
    std::uint64_t sum = 0;
    for (const auto &at : queries) {
        std::uint64_t best = 0;
        unsigned __int128 least = ~static_cast<unsigned __int128>(0);
        for (std::uint64_t v = 0; v < mesh.size(); v++) {
            unsigned __int128 square = 0;
            for (int i = 0; i < D; i++) {
                __int128 way = mesh[v][i] - at[i];
                square += static_cast<unsigned __int128>(way * way);
            }
            if (square < least) {
                least = square;
                best = v;
            }
        }
        sum += best;
    }
    return sum;
}

#ifdef HAS_BOOST
namespace geometry = boost::geometry;

template <int D> static std::uint64_t rtree(const Points<D> &mesh, const Points<D> &queries) {
    using Point = geometry::model::point<double, D, geometry::cs::cartesian>;
    using Entry = std::pair<Point, unsigned>;
    auto at = [](const std::array<std::int64_t, D> &of) {
        Point point;
        geometry::set<0>(point, static_cast<double>(of[0]));
        geometry::set<1>(point, static_cast<double>(of[1]));
        if constexpr (D == 3) geometry::set<2>(point, static_cast<double>(of[2]));
        return point;
    };
    std::vector<Entry> entries;
    for (unsigned v = 0; v < mesh.size(); v++) entries.emplace_back(at(mesh[v]), v);
    geometry::index::rtree<Entry, geometry::index::rstar<16>> tree(entries);
    std::uint64_t sum = 0;
    for (const auto &query : queries)
        for (auto it = tree.qbegin(geometry::index::nearest(at(query), 1)); it != tree.qend(); ++it) sum += it->second;
    return sum;
}
#endif

#ifdef HAS_NANOFLANN
template <int D> struct Cloud {
    std::vector<std::array<double, D>> points;
    std::size_t kdtree_get_point_count() const { return points.size(); }
    double kdtree_get_pt(std::size_t v, std::size_t i) const { return points[v][i]; }
    template <class Box> bool kdtree_get_bbox(Box &) const { return false; }
};

template <int D> static std::uint64_t kdtree(const Points<D> &mesh, const Points<D> &queries) {
    Cloud<D> cloud;
    for (const auto &at : mesh) {
        std::array<double, D> point;
        for (int i = 0; i < D; i++) point[i] = static_cast<double>(at[i]);
        cloud.points.push_back(point);
    }
    using Tree = nanoflann::KDTreeSingleIndexAdaptor<nanoflann::L2_Simple_Adaptor<double, Cloud<D>>, Cloud<D>, D, unsigned>;
    Tree tree(D, cloud, nanoflann::KDTreeSingleIndexAdaptorParams(10));
    tree.buildIndex();
    std::uint64_t sum = 0;
    for (const auto &at : queries) {
        double point[D], square;
        for (int i = 0; i < D; i++) point[i] = static_cast<double>(at[i]);
        unsigned nearest;
        tree.knnSearch(point, 1, &nearest, &square);
        sum += nearest;
    }
    return sum;
}
#endif

template <int D> static std::uint64_t run(const std::string &how, const std::string &shape, int rounds) {
    auto mesh = points<D>(shape, false, 1), queries = points<D>(shape, true, 2);
    std::uint64_t sum = 0;
    for (int round = 0; round < rounds; round++) {
        if (how == "scan") sum += scan<D>(mesh, queries);
#ifdef HAS_BOOST
        else if (how == "rtree") sum += rtree<D>(mesh, queries);
#endif
#ifdef HAS_NANOFLANN
        else if (how == "kdtree") sum += kdtree<D>(mesh, queries);
#endif
        else std::exit(2);
    }
    return sum;
}

int main(int count, char **words) {
    if (count != 5) return 2;
    int rounds = std::atoi(words[4]);
    std::uint64_t sum = std::atoi(words[3]) == 2 ? run<2>(words[1], words[2], rounds) : run<3>(words[1], words[2], rounds);
    std::printf("%llu\n", static_cast<unsigned long long>(sum));
}
