// LevelDB: a read-modify-write is a get and a put, with the lock of one of 64 parts of the keys held.
#include "ycsb.hpp"
#include <leveldb/cache.h>
#include <leveldb/db.h>
#include <leveldb/filter_policy.h>
#include <memory>
#include <mutex>

using leveldb::Slice;

static void check(const leveldb::Status& status) {
    if (!status.ok()) fail(status.ToString());
}

struct Level {
    std::unique_ptr<leveldb::DB> db;
    std::mutex locks[64];

    // a quarter of what it may keep is for what is not written to its files yet
    explicit Level(const Plan& plan) {
        leveldb::Options options;
        options.create_if_missing = true;
        options.compression = leveldb::kNoCompression;
        options.write_buffer_size = plan.cache / 8;
        options.block_cache = leveldb::NewLRUCache(plan.cache / 4 * 3);
        options.filter_policy = leveldb::NewBloomFilterPolicy(10);
        leveldb::DB* opened;
        check(leveldb::DB::Open(options, plan.folder, &opened));
        db.reset(opened);
    }

    void load(uint64_t keys) {
        for (uint64_t key = 0; key < keys; key++) session().upsert(key, 0);
    }

    struct Session {
        Level& store;
        std::string found{};

        uint64_t read(uint64_t key) {
            check(store.db->Get({}, Bytes(key).operator Slice(), &found));
            return word_of(found);
        }

        void update(uint64_t key) {
            std::lock_guard<std::mutex> held(store.locks[mixed(key) % 64]);
            upsert(key, read(key) + 1);
        }

        void upsert(uint64_t key, uint64_t value) {
            check(store.db->Put({}, Bytes(key).operator Slice(), Bytes(value).operator Slice()));
        }

        void end() {}
    };

    Session session() { return {*this}; }

    template <class Each> void each(Each see) {
        std::unique_ptr<leveldb::Iterator> all(db->NewIterator({}));
        for (all->SeekToFirst(); all->Valid(); all->Next()) see(word_of(all->key().ToString()), word_of(all->value().ToString()));
        check(all->status());
    }
};

int main(int count, char** words) {
    Plan plan = plan_of(count, words);
    Level store(plan);
    return run(plan, store);
}
