// Tkrzw: its table in memory, or its table in a file where there is less memory than the keys take.
#include "ycsb.hpp"
#include <memory>
#include <tkrzw_dbm_hash.h>
#include <tkrzw_dbm_tiny.h>

static void check(const tkrzw::Status& status) {
    if (!status.IsOK()) fail(status.GetMessage());
}

struct Tkrzw {
    std::unique_ptr<tkrzw::DBM> db;

    // a record takes some 40 bytes
    explicit Tkrzw(const Plan& plan) {
        int64_t buckets = int64_t(plan.keys) * 2;
        if (plan.keys * 40 < plan.cache) {
            db = std::make_unique<tkrzw::TinyDBM>(buckets);
            return;
        }
        auto hash = std::make_unique<tkrzw::HashDBM>();
        tkrzw::HashDBM::TuningParameters tuning;
        tuning.num_buckets = buckets;
        check(hash->OpenAdvanced(plan.folder + "/table.tkh", true, tkrzw::File::OPEN_TRUNCATE, tuning));
        db = std::move(hash);
    }

    void load(uint64_t keys) {
        for (uint64_t key = 0; key < keys; key++) session().upsert(key, 0);
    }

    struct Session {
        Tkrzw& store;
        std::string found{};

        void read(uint64_t key) {
            check(store.db->Get(Bytes(key).operator std::string_view(), &found));
            word_of(found);
        }

        void update(uint64_t key) { check(store.db->Increment(Bytes(key).operator std::string_view(), 1)); }

        void upsert(uint64_t key, uint64_t value) {
            check(store.db->Set(Bytes(key).operator std::string_view(), Bytes(value).operator std::string_view()));
        }

        void end() {}
    };

    Session session() { return {*this}; }

    template <class Each> void each(Each see) {
        auto all = db->MakeIterator();
        std::string key, value;
        for (check(all->First()); all->Get(&key, &value).IsOK(); check(all->Next())) see(word_of(key), word_of(value));
    }
};

int main(int count, char** words) {
    Plan plan = plan_of(count, words);
    Tkrzw store(plan);
    return run(plan, store);
}
