// An index in C++ with its adaptor: a set in one std::atomic, with no hooks of its own. Compiled with -fsanitize=thread and linked with
// drive/turns/compiler.c, it takes the bench's turns as long as there are no splits and joins.
#include <nuxalder.h>
#include <nuxalder_drive.h>

#include <atomic>
#include <cstdint>

namespace {

class Word {
public:
    int lookup(int station) const { return root.load(std::memory_order_acquire) >> station & 1; }

    int update(int station, bool insert)
    {
        const std::uint64_t bit = std::uint64_t{1} << station;
        for (;;) {
            std::uint64_t old = root.load();                                           // 1
            stage.load(std::memory_order_acquire);                                     // 3
            if (root.compare_exchange_strong(old, insert ? old | bit : old & ~bit)) {  // 10; equal sets swap too
                uses.fetch_add(1, std::memory_order_relaxed);                          // statistics: no turn
                return ((old & bit) != 0) != insert;
            }
            stage.load(std::memory_order_acquire); // 15
        }
    }

    std::uint64_t set() const { return root.load(); }

private:
    std::atomic<std::uint64_t> root{0};
    std::atomic<int> stage{2};
    std::atomic<long> uses{0};
};

void *create(int) { return new Word; }
void destroy(void *index) { delete static_cast<Word *>(index); }

int operate(void *index, const nuxalder_drive_call *call, nuxalder_drive_found *)
{
    Word *word = static_cast<Word *>(index);
    switch (call->action) {
    case NUXALDER_LOOKUP: return word->lookup(call->station);
    case NUXALDER_INSERT: return word->update(call->station, true);
    case NUXALDER_REMOVE: return word->update(call->station, false);
    case NUXALDER_RANGE: return NUXALDER_DRIVE_LACKING;
    default: return 0;
    }
}

std::uint64_t set(void *index) { return static_cast<Word *>(index)->set(); }

} // namespace

extern const nuxalder_drive_index nuxalder_drive_adaptor = {NUXALDER_DRIVE_VERSION, create, destroy, operate, nullptr, set, nullptr};
