// LMDB: writes are put off and made a hundred in a transaction, which is not synced; each read sees the last one.
#include "ycsb.hpp"
#include <lmdb.h>

static void check(int code) {
    if (code) fail(mdb_strerror(code));
}

struct Lmdb {
    MDB_env* env;
    MDB_dbi table;

    static constexpr unsigned FLAGS = MDB_NOSYNC | MDB_WRITEMAP | MDB_MAPASYNC | MDB_NOTLS | MDB_NOMETASYNC;

    explicit Lmdb(const Plan& plan) {
        check(mdb_env_create(&env));
        check(mdb_env_set_mapsize(env, size_t(1) << 34));
        check(mdb_env_open(env, plan.folder.c_str(), FLAGS, 0644));
        MDB_txn* txn;
        check(mdb_txn_begin(env, nullptr, 0, &txn));
        check(mdb_dbi_open(txn, nullptr, MDB_INTEGERKEY, &table));
        check(mdb_txn_commit(txn));
    }

    void put(MDB_txn* txn, uint64_t key, uint64_t value, unsigned flags = 0) {
        MDB_val name{8, &key}, held{8, &value};
        check(mdb_put(txn, table, &name, &held, flags));
    }

    uint64_t get(MDB_txn* txn, uint64_t key) {
        MDB_val name{8, &key}, held;
        check(mdb_get(txn, table, &name, &held));
        return *(uint64_t*)held.mv_data;
    }

    void load(uint64_t keys) {
        MDB_txn* txn;
        check(mdb_txn_begin(env, nullptr, 0, &txn));
        for (uint64_t key = 0; key < keys; key++) put(txn, key, 0, MDB_APPEND);
        check(mdb_txn_commit(txn));
    }

    struct Write {
        uint64_t key, value;
        bool adds;
    };

    struct Session {
        Lmdb& store;
        MDB_txn* reads = nullptr;
        std::vector<Write> writes{};

        void read(uint64_t key) {
            if (!reads) check(mdb_txn_begin(store.env, nullptr, MDB_RDONLY, &reads));
            else check(mdb_txn_renew(reads));
            store.get(reads, key);
            mdb_txn_reset(reads);
        }

        void put_off(Write write) {
            writes.push_back(write);
            if (writes.size() == 100) flush();
        }

        void update(uint64_t key) { put_off({key, 1, true}); }
        void upsert(uint64_t key, uint64_t value) { put_off({key, value, false}); }

        void flush() {
            MDB_txn* txn;
            check(mdb_txn_begin(store.env, nullptr, 0, &txn));
            for (Write& write : writes)
                store.put(txn, write.key, write.adds ? store.get(txn, write.key) + write.value : write.value);
            check(mdb_txn_commit(txn));
            writes.clear();
        }

        void end() {
            flush();
            if (reads) mdb_txn_abort(reads);
        }
    };

    Session session() { return {*this}; }

    template <class Each> void each(Each see) {
        MDB_txn* txn;
        MDB_cursor* cursor;
        MDB_val name, held;
        check(mdb_txn_begin(env, nullptr, MDB_RDONLY, &txn));
        check(mdb_cursor_open(txn, table, &cursor));
        while (mdb_cursor_get(cursor, &name, &held, MDB_NEXT) == 0) see(*(uint64_t*)name.mv_data, *(uint64_t*)held.mv_data);
    }
};

int main(int count, char** words) {
    Plan plan = plan_of(count, words);
    Lmdb store(plan);
    return run(plan, store);
}
