// SPDX-License-Identifier: MIT OR Apache-2.0
// A unit from C++: a class that owns its handle, which is moved and never copied.
#include "smmuq.h"

#include <cstdio>
#include <utility>

class Unit {
public:
    explicit Unit(uint32_t capacity) : status_(smmuq_unit_new(capacity, &unit_)) {}
    Unit(Unit &&other) noexcept : unit_(std::exchange(other.unit_, smmuq_unit SMMUQ_EMPTY)), status_(other.status_) {}
    Unit(const Unit &) = delete;
    Unit &operator=(const Unit &) = delete;
    Unit &operator=(Unit &&) = delete;
    ~Unit() { smmuq_free(&unit_.handle); }

    smmuq_status judge(smmuq_command command, smmuq_verdict &verdict) {
        return status_ == SMMUQ_OK ? smmuq_unit_judge(&unit_, command.lo, command.hi, &verdict) : status_;
    }
    smmuq_status acknowledge(uint32_t gerrorn, smmuq_remedy remedy) {
        return smmuq_acknowledge(&unit_.handle, gerrorn, remedy);
    }
    smmuq_status state(smmuq_errors &errors, smmuq_tallies &tallies) { return smmuq_state(&unit_.handle, &errors, &tallies); }

private:
    smmuq_unit unit_ SMMUQ_EMPTY;
    smmuq_status status_;
};

const smmuq_command CMD_SYNC = {SMMUQ_OPCODE_CMD_SYNC, 0}, UNKNOWN = {0xff, 0};

// A unit stops at an illegal command, and software says that the next words decide: how it stands before and after these.
bool rereads(smmuq_command next, smmuq_status wanted, smmuq_errors stands, uint64_t replaced, uint64_t syncs) {
    Unit unit(16);
    smmuq_verdict verdict;
    smmuq_errors errors;
    smmuq_tallies tallies;
    return unit.judge(UNKNOWN, verdict) == SMMUQ_ILL_OPCODE && unit.acknowledge(0, SMMUQ_REREAD) == SMMUQ_OTHER_BIT
        && unit.acknowledge(1, SMMUQ_REREAD) == SMMUQ_OK && unit.acknowledge(1, SMMUQ_REPLACE) == SMMUQ_NO_ERROR
        && unit.state(errors, tallies) == SMMUQ_OK && errors.err == 0 && errors.gerror == 1 && errors.gerrorn == 1
        && tallies.replaced == 0 && unit.judge(next, verdict) == wanted && verdict.ill == wanted
        && unit.state(errors, tallies) == SMMUQ_OK && errors.err == stands.err && errors.gerror == stands.gerror
        && errors.gerrorn == stands.gerrorn && tallies.replaced == replaced && tallies.syncs == syncs;
}

int main() {
    Unit made(16);
    Unit moved(std::move(made));
    smmuq_verdict verdict;
    const bool right = moved.judge(CMD_SYNC, verdict) == SMMUQ_OK && made.judge(CMD_SYNC, verdict) == SMMUQ_EMPTY_HANDLE
        && smmuq_version() == SMMUQ_VERSION;
    // The same words stop it once more, and those of a CMD_SYNC stand in place of the illegal ones.
    const bool reread = rereads(UNKNOWN, SMMUQ_ILL_OPCODE, {1, 0, 1}, 0, 0) && rereads(CMD_SYNC, SMMUQ_OK, {0, 1, 1}, 1, 1);
    std::puts(right ? "C++: one unit, moved" : "C++: wrong");
    std::puts(reread ? "C++: an illegal command reread, as it was and written over" : "C++: wrong");
    return right && reread ? 0 : 1;
}
