// The peer of vs_measure: the same words, the same generated vectors, the same lines, by hnswlib with a space of Hamming distances.
#include <hnswlib/hnswlib.h>

#include <algorithm>
#include <cstdint>
#include <cstdio>
#include <cstdlib>
#include <ctime>
#include <iostream>
#include <string>
#include <vector>

// PCG's 32-bit generator XSH-RR, from a state and a stream.
class Words {
  public:
    Words(uint64_t seed, uint64_t stream) : increment(stream << 1 | 1) {
        state = seed + increment;
        step();
    }
    uint32_t next() {
        uint64_t old = state;
        step();
        uint32_t low = static_cast<uint32_t>(((old >> 18) ^ old) >> 27);
        uint32_t turn = old >> 59;
        return low >> turn | low << (-turn & 31);
    }

  private:
    void step() { state = state * 6364136223846793005u + increment; }
    uint64_t state, increment;
};

using Halves = std::vector<uint32_t>;
using Bits = std::vector<uint64_t>;

struct Case {
    bool clustered;
    uint32_t members, dim, m, ef_construction, seed, searches;
    std::vector<uint32_t> efs;
};

static Halves uniform(uint32_t count, Words& source) {
    Halves words;
    for (uint32_t i = 0; i < count; i++) words.push_back(source.next());
    return words;
}

static Halves around(const Halves& center, Words& source) {
    Halves words;
    for (uint32_t word : center) {
        uint32_t a = source.next(), b = source.next(), c = source.next();
        words.push_back(word ^ (a & b & c));
    }
    return words;
}

static Bits bits_of(uint32_t dim, const Halves& words) {
    Bits bits((dim + 63) / 64);
    for (uint32_t place = 0; place < dim; place++)
        if (words[place / 32] >> (place % 32) & 1) bits[place / 64] |= uint64_t(1) << (place % 64);
    return bits;
}

static std::vector<Bits> vectors_of(const Case& it, uint32_t count, uint64_t stream) {
    std::vector<Halves> centers;
    Words center_words(it.seed, 3);
    if (it.clustered)
        for (int i = 0; i < 64; i++) centers.push_back(uniform((it.dim + 31) / 32, center_words));
    Words source(it.seed, stream);
    std::vector<Bits> vectors;
    for (uint32_t number = 0; number < count; number++) {
        if (centers.empty()) {
            vectors.push_back(bits_of(it.dim, uniform((it.dim + 31) / 32, source)));
        } else {
            uint32_t chosen = source.next() % centers.size();
            vectors.push_back(bits_of(it.dim, around(centers[chosen], source)));
        }
    }
    return vectors;
}

static int hamming(const void* left, const void* right, const void* count) {
    const uint64_t* a = static_cast<const uint64_t*>(left);
    const uint64_t* b = static_cast<const uint64_t*>(right);
    size_t words = *static_cast<const size_t*>(count);
    int differing = 0;
    for (size_t i = 0; i < words; i++) differing += __builtin_popcountll(a[i] ^ b[i]);
    return differing;
}

class HammingSpace : public hnswlib::SpaceInterface<int> {
  public:
    explicit HammingSpace(size_t words) : words(words) {}
    size_t get_data_size() override { return words * sizeof(uint64_t); }
    hnswlib::DISTFUNC<int> get_dist_func() override { return hamming; }
    void* get_dist_func_param() override { return &words; }

  private:
    size_t words;
};

// For each vector looked for, how far its ten nearest members are at most.
static std::vector<int> bounds_of(const std::vector<Bits>& members, const std::vector<Bits>& queries, size_t words) {
    std::vector<int> bounds;
    for (const Bits& query : queries) {
        std::vector<int> distances;
        for (const Bits& member : members) distances.push_back(hamming(query.data(), member.data(), &words));
        size_t last = std::min<size_t>(10, distances.size());
        if (last > 0) std::nth_element(distances.begin(), distances.begin() + (last - 1), distances.end());
        bounds.push_back(last > 0 ? distances[last - 1] : 0);
    }
    return bounds;
}

static double thread_seconds() {
    timespec time;
    clock_gettime(CLOCK_THREAD_CPUTIME_ID, &time);
    return time.tv_sec + time.tv_nsec * 1e-9;
}

static Case case_of(int count, char** words) {
    if (count < 8) {
        std::cerr << "the words are: uniform|clustered MEMBERS DIMENSION M EF_CONSTRUCTION SEED SEARCHES EF..\n";
        std::exit(1);
    }
    auto number = [&](int place) { return static_cast<uint32_t>(std::stoul(words[place])); };
    Case it{std::string(words[1]) == "clustered", number(2), number(3), number(4), number(5), number(6), number(7), {}};
    for (int place = 8; place < count; place++) it.efs.push_back(number(place));
    return it;
}

int main(int count, char** words) {
    Case it = case_of(count, words);
    std::vector<Bits> members = vectors_of(it, it.members, 1), queries = vectors_of(it, it.searches, 2);
    std::cerr << "generated" << std::endl;
    std::string line;
    if (!std::getline(std::cin, line)) return 0;
    size_t bit_words = (it.dim + 63) / 64;
    HammingSpace space(bit_words);
    hnswlib::HierarchicalNSW<int> graph(&space, it.members, it.m, it.ef_construction);
    double start = thread_seconds();
    for (size_t id = 0; id < members.size(); id++) graph.addPoint(members[id].data(), id);
    std::cerr << "insertions a second " << static_cast<uint64_t>(it.members / (thread_seconds() - start)) << std::endl;
    std::vector<int> bounds = bounds_of(members, queries, bit_words);
    std::cout << "members " << it.members << " searches " << it.searches << std::endl;
    while (std::getline(std::cin, line)) {
        for (uint32_t ef : it.efs) {
            graph.setEf(ef);
            uint64_t found = 0;
            start = thread_seconds();
            for (size_t number = 0; number < queries.size(); number++) {
                auto nearest = graph.searchKnn(queries[number].data(), 10);
                for (; !nearest.empty(); nearest.pop()) found += nearest.top().first <= bounds[number];
            }
            double seconds = thread_seconds() - start;
            std::cout << "ef " << ef << " found " << found << std::endl;
            std::cerr << "ef " << ef << " searches a second " << static_cast<uint64_t>(it.searches / seconds) << std::endl;
        }
        std::cerr << "searched" << std::endl;
    }
    return 0;
}
