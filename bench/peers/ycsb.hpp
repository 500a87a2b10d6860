// What the peers in C++ share: the command line, the draws, the threads and the check. They are those of crates/fkv_ycsb, so that
// each program makes the same operations on the same keys, and prints the same digest.
//
//     PEER KEYS OPERATIONS THREADS MIX LAW CACHE FOLDER
//
// MIX is 0:100 (read-modify-writes), 50:50 or 95:5 (reads and upserts) or none; LAW is uniform or zipf; CACHE is how many bytes
// the store may keep in memory; its files go to FOLDER, which is there and empty.
#pragma once
#include <algorithm>
#include <chrono>
#include <cmath>
#include <cstdint>
#include <cstdio>
#include <cstdlib>
#include <ctime>
#include <string>
#include <string_view>
#include <thread>
#include <vector>

struct Plan {
    uint64_t keys, operations, threads;
    std::string mix, law;
    uint64_t cache;
    std::string folder;
};

[[noreturn]] inline void fail(const std::string& why) {
    std::fprintf(stderr, "%s\n", why.c_str());
    std::exit(1);
}

inline Plan plan_of(int count, char** words) {
    if (count != 8) fail("KEYS OPERATIONS THREADS MIX LAW CACHE FOLDER");
    return {std::strtoull(words[1], nullptr, 10), std::strtoull(words[2], nullptr, 10), std::strtoull(words[3], nullptr, 10),
            words[4], words[5], std::strtoull(words[6], nullptr, 10), words[7]};
}

// The last steps of MurmurHash3.
inline uint64_t mixed(uint64_t word) {
    word = (word ^ (word >> 33)) * 18397679294719823053u;
    word = (word ^ (word >> 33)) * 14181476777654086739u;
    return word ^ (word >> 33);
}

// xoshiro256++, begun by SplitMix64.
struct Words {
    uint64_t state[4];

    explicit Words(uint64_t seed) {
        for (uint64_t& word : state) {
            uint64_t z = (seed += 0x9e3779b97f4a7c15);
            z = (z ^ (z >> 30)) * 0xbf58476d1ce4e5b9;
            z = (z ^ (z >> 27)) * 0x94d049bb133111eb;
            word = z ^ (z >> 31);
        }
    }

    static uint64_t turned(uint64_t word, int by) { return word << by | word >> (64 - by); }

    uint64_t next() {
        uint64_t* s = state;
        uint64_t word = turned(s[0] + s[3], 23) + s[0], shifted = s[1] << 17;
        s[2] ^= s[0], s[3] ^= s[1], s[1] ^= s[2], s[0] ^= s[3], s[2] ^= shifted;
        s[3] = turned(s[3], 45);
        return word;
    }
};

// Draws keys: each alike, or by Zipf's law as YCSB draws them.
struct Drawer {
    uint64_t keys;
    bool zipf;
    double total = 0, second = std::pow(0.5, 0.99), eta;

    explicit Drawer(const Plan& plan) : keys(plan.keys), zipf(plan.law == "zipf") {
        for (uint64_t rank = 1; zipf && rank <= keys; rank++) total += 1 / std::pow(double(rank), 0.99);
        eta = (1 - std::pow(2 / double(keys), 1 - 0.99)) / (1 - (1 + second) / total);
    }

    uint64_t rank(uint64_t word) const {
        double share = double(word >> 11) / 9007199254740992.0, weight = share * total;
        if (weight < 1) return 0;
        if (weight < 1 + second) return 1;
        return uint64_t(double(keys) * std::pow(eta * share - eta + 1, 1 / (1 - 0.99)));
    }

    std::vector<uint64_t> list(uint64_t count, uint64_t seed) const {
        Words words(seed);
        std::vector<uint64_t> list(count);
        for (uint64_t& key : list) key = (zipf ? mixed(rank(words.next())) : words.next()) % keys;
        return list;
    }
};

// A key as eight bytes, the highest first, so that stores that are ordered have them in order.
struct Bytes {
    char bytes[8];

    explicit Bytes(uint64_t word) {
        for (int place = 7; place >= 0; place--, word >>= 8) bytes[place] = char(word & 255);
    }

    template <class Text> operator Text() const { return Text(bytes, 8); }
};

inline uint64_t word_of(std::string_view text) {
    if (text.size() != 8) fail("a value has other than eight bytes");
    uint64_t word = 0;
    for (char byte : text) word = word << 8 | uint8_t(byte);
    return word;
}

template <class Session> void make(Session session, const std::vector<uint64_t>& keys, uint64_t period) {
    for (uint64_t place = 0; place < keys.size(); place++) {
        if (period == 1) session.update(keys[place]);
        else if (place % period == period - 1) session.upsert(keys[place], keys[place] + 1);
        else session.read(keys[place]);
    }
    session.end();
}

inline double processor_time() {
    timespec now;
    clock_gettime(CLOCK_PROCESS_CPUTIME_ID, &now);
    return double(now.tv_sec) * 1e9 + double(now.tv_nsec);
}

// Loads the store, has threads make the operations, checks what it came to, and tells it.
template <class Store> int run(const Plan& plan, Store& store) {
    using Clock = std::chrono::steady_clock;
    store.load(plan.keys);
    Drawer drawer(plan);
    std::vector<std::vector<uint64_t>> lists;
    for (uint64_t thread = 0; thread < plan.threads; thread++) lists.push_back(drawer.list(plan.operations, 1 + thread));
    uint64_t period = plan.mix == "0:100" ? 1 : plan.mix == "50:50" ? 2 : 20;
    std::vector<double> times(plan.threads);
    double before = processor_time();
    std::vector<std::thread> threads;
    for (uint64_t thread = 0; plan.mix != "none" && thread < plan.threads; thread++)
        threads.emplace_back([&, thread] {
            auto begun = Clock::now();
            make(store.session(), lists[thread], period);
            times[thread] = std::chrono::duration<double, std::nano>(Clock::now() - begun).count();
        });
    for (std::thread& thread : threads) thread.join();
    double spent = processor_time() - before;
    uint64_t digest = 0, sum = 0, count = 0;
    bool right = true;
    store.each([&](uint64_t key, uint64_t value) {
        digest += value * (2 * key + 1), sum += value, count++;
        right = right && (period == 1 || value == 0 || value == key + 1);
    });
    uint64_t operations = plan.operations * plan.threads;
    std::printf("operations %llu\n", (unsigned long long)operations);
    std::printf("nanoseconds %.0f\nprocessor nanoseconds %.0f\n", *std::max_element(times.begin(), times.end()), spent);
    std::printf("digest %llu\n", (unsigned long long)digest);
    if (!right || count != plan.keys || (plan.mix == "0:100" && sum != operations)) fail("the values are wrong");
    return 0;
}
