// RocksDB: a read-modify-write is a merge, which reads nothing; no log is written ahead.
#include "ycsb.hpp"
#include <rocksdb/cache.h>
#include <rocksdb/db.h>
#include <rocksdb/filter_policy.h>
#include <rocksdb/merge_operator.h>
#include <rocksdb/table.h>
#include <memory>

using rocksdb::Slice;

static void check(const rocksdb::Status& status) {
    if (!status.ok()) fail(status.ToString());
}

static uint64_t held(const Slice& text) { return word_of({text.data(), text.size()}); }

struct Adds : rocksdb::AssociativeMergeOperator {
    bool Merge(const Slice&, const Slice* old, const Slice& by, std::string* sum, rocksdb::Logger*) const override {
        *sum = Bytes((old ? held(*old) : 0) + held(by)).operator std::string();
        return true;
    }

    const char* Name() const override { return "adds"; }
};

struct Rocks {
    std::unique_ptr<rocksdb::DB> db;
    rocksdb::WriteOptions writes;

    // a quarter of what it may keep is for what is not written to its files yet
    explicit Rocks(const Plan& plan) {
        rocksdb::Options options;
        options.create_if_missing = true;
        options.compression = rocksdb::kNoCompression;
        options.merge_operator = std::make_shared<Adds>();
        options.write_buffer_size = plan.cache / 8;
        options.max_write_buffer_number = 2;
        rocksdb::BlockBasedTableOptions table;
        table.block_cache = rocksdb::NewLRUCache(plan.cache / 4 * 3);
        table.filter_policy.reset(rocksdb::NewBloomFilterPolicy(10));
        table.cache_index_and_filter_blocks = true;
        options.table_factory.reset(rocksdb::NewBlockBasedTableFactory(table));
        writes.disableWAL = true;
        rocksdb::DB* opened;
        check(rocksdb::DB::Open(options, plan.folder, &opened));
        db.reset(opened);
    }

    void load(uint64_t keys) {
        for (uint64_t key = 0; key < keys; key++) session().upsert(key, 0);
    }

    struct Session {
        Rocks& store;
        rocksdb::PinnableSlice found{};

        void read(uint64_t key) {
            found.Reset();
            check(store.db->Get({}, store.db->DefaultColumnFamily(), Bytes(key).operator Slice(), &found));
            held(found);
        }

        void update(uint64_t key) {
            check(store.db->Merge(store.writes, Bytes(key).operator Slice(), Bytes(1).operator Slice()));
        }

        void upsert(uint64_t key, uint64_t value) {
            check(store.db->Put(store.writes, Bytes(key).operator Slice(), Bytes(value).operator Slice()));
        }

        void end() {}
    };

    Session session() { return {*this}; }

    template <class Each> void each(Each see) {
        std::unique_ptr<rocksdb::Iterator> all(db->NewIterator({}));
        for (all->SeekToFirst(); all->Valid(); all->Next()) see(held(all->key()), held(all->value()));
        check(all->status());
    }
};

int main(int count, char** words) {
    Plan plan = plan_of(count, words);
    Rocks store(plan);
    return run(plan, store);
}
