// Every entry of yuthsaok.h called from C++: README's product, a system of one unknown, a determinant of two rows, the small entries, and
// windows of days.
#include "yuthsaok.h"
#include <cstdio>
#include <cstdlib>
#include <string>
#include <vector>

namespace {

using Bytes = std::vector<std::uint8_t>;

Bytes bytes(const std::vector<std::uint32_t> &words) {
    Bytes made;
    for (auto word : words)
        for (int i = 0; i < 4; i++) made.push_back(static_cast<std::uint8_t>(word >> 8 * i));
    return made;
}

void holds(bool fact, const char *what) {
    if (fact) return;
    std::printf("entries.cpp: not so: %s\n", what);
    std::exit(1);
}

// One end: its record, its pool of one slot, and what its last call wrote.
struct End {
    Bytes record = Bytes(YUTHSAOK_RECORD_BYTES), pool, scratch, result;
    std::string line;
    std::size_t slot = 0;

    void lay(std::size_t words) { slot = words, pool.assign(4 * words, 0), result.assign(16, 0); }

    void take(yuthsaok_report r, std::vector<std::uint8_t> &room) {
        holds(r.number == 0, "a step is taken");
        line.assign(room.begin(), room.begin() + static_cast<std::ptrdiff_t>(r.bytes));
    }

    void first(std::uint32_t end, std::uint32_t q, std::uint32_t m, std::uint32_t k, std::uint32_t p, const Bytes &input, const Bytes &raw,
               const std::string &message) {
        Bytes room(YUTHSAOK_LINE_BYTES(8));
        take(yuthsaok_first(record.data(), record.size(), end, pool.data(), pool.size(), slot, 0, 9, 4, q, m, k, p, input.data(), input.size(),
                            raw.data(), raw.size(), scratch.data(), scratch.size(), reinterpret_cast<const std::uint8_t *>(message.data()),
                            message.size(), room.data(), room.size(), result.data(), result.size()),
             room);
    }

    void next(const std::string &message) {
        Bytes room(YUTHSAOK_LINE_BYTES(8));
        take(yuthsaok_next(record.data(), record.size(), pool.data(), pool.size(), slot, 0, scratch.data(), scratch.size(),
                           reinterpret_cast<const std::uint8_t *>(message.data()), message.size(), room.data(), room.size(), result.data(),
                           result.size()),
             room);
    }

    yuthsaok_report drop() {
        return yuthsaok_drop(record.data(), record.size(), pool.data(), pool.size(), slot, 0, scratch.data(), scratch.size());
    }
};

void product() {
    End left, right;
    left.lay(YUTHSAOK_PRODUCT_SLOT_WORDS(1, 2, 1)), right.lay(left.slot);
    Bytes raw = bytes({1, 4, 6, 3, 2});
    auto dealt = yuthsaok_deal(YUTHSAOK_PRODUCT, left.pool.data(), left.pool.size(), right.pool.data(), right.pool.size(), left.slot, 0, 4, 7, 1, 2,
                               1, raw.data(), raw.size());
    holds(dealt.number == 0 && dealt.read == 5, "README's tape is dealt");
    right.first(YUTHSAOK_RIGHT, 7, 1, 2, 1, bytes({2, 6}), {}, "");
    holds(right.line == "1,9,4,7,1,2,1,3,3\n", "right's line");
    left.first(YUTHSAOK_LEFT, 7, 1, 2, 1, bytes({3, 5}), bytes({5}), right.line);
    holds(left.line == "2,9,4,7,1,2,1,4,2,3\n" && left.result[0] == 5, "left's line and share");
    right.next(left.line);
    holds(right.line.empty() && right.result[0] == 3, "right's share");
    holds(right.drop().number == YUTHSAOK_TURN, "a closed session is not dropped");
}

void system_of_one() {
    End blinder, solver;
    blinder.lay(YUTHSAOK_SYSTEM_SLOT_WORDS(1)), solver.lay(blinder.slot);
    blinder.scratch.assign(4 * YUTHSAOK_SCRATCH_WORDS(1), 0);
    Bytes raw = bytes({1, 4, 2, 0, 3, 3, 2, 1});
    auto dealt = yuthsaok_deal(YUTHSAOK_SYSTEM, blinder.pool.data(), blinder.pool.size(), solver.pool.data(), solver.pool.size(), blinder.slot, 0,
                               4, 5, 1, 1, 2, raw.data(), raw.size());
    holds(dealt.number == 0 && dealt.read == 8, "a system's tape is dealt");
    solver.first(YUTHSAOK_SOLVER, 5, 1, 1, 2, bytes({2, 3}), {}, "");
    blinder.first(YUTHSAOK_BLINDER, 5, 1, 1, 2, bytes({1, 1}), bytes({2, 1, 2}), solver.line);
    solver.next(blinder.line), blinder.next(solver.line), solver.next(blinder.line), blinder.next(solver.line);
    holds(blinder.result[0] == 3, "z");
}

// L + M is 4, 2 and 5, 2; modulo 7 its determinant is 5.
void determinant_of_two() {
    End blinder, solver;
    blinder.lay(YUTHSAOK_DETERMINANT_SLOT_WORDS(2)), solver.lay(blinder.slot);
    blinder.scratch.assign(4 * YUTHSAOK_DETERMINANT_SCRATCH_WORDS(2), 0);
    Bytes raw = bytes({1, 2, 3, 4, 5, 6, 7, 8, 9, 10, 11, 12, 13, 14, 15, 16, 17, 18, 19, 20, 21, 22, 23, 24});
    auto dealt = yuthsaok_deal(YUTHSAOK_SYSTEM, blinder.pool.data(), blinder.pool.size(), solver.pool.data(), solver.pool.size(), blinder.slot, 0,
                               4, 7, 2, 2, 2, raw.data(), raw.size());
    holds(dealt.number == 0 && dealt.read == YUTHSAOK_DETERMINANT_DRAWS(2), "a determinant's tape is dealt");
    solver.first(YUTHSAOK_SOLVER, 7, 2, 2, 2, bytes({1, 2, 0, 1}), {}, "");
    blinder.first(YUTHSAOK_BLINDER, 7, 2, 2, 2, bytes({3, 0, 5, 1}), bytes({1, 2, 3, 5, 6, 1, 2, 3}), solver.line);
    solver.next(blinder.line), blinder.next(solver.line), solver.next(blinder.line);
    holds(solver.line == "6,9,4,7,2,2,2,3\n", "the determinant of W + V");
    blinder.next(solver.line);
    holds(blinder.result[0] == 5 && blinder.result[4] == 0, "the determinant of L + M");
}

void small() {
    std::uint8_t word[YUTHSAOK_REFUSAL_WORD_BYTES];
    Bytes one = bytes({1});
    holds(yuthsaok_version() == YUTHSAOK_VERSION && yuthsaok_record_words() == YUTHSAOK_RECORD_WORDS, "version and record");
    holds(yuthsaok_tape_words(YUTHSAOK_LEFT, 1, 2, 1) == YUTHSAOK_LEFT_WORDS(1, 2, 1), "a half");
    holds(yuthsaok_scratch_words(YUTHSAOK_BLINDER, 1, 1, 2) == 3 && yuthsaok_coin_count(YUTHSAOK_LEFT, 1, 2, 1) == 1, "scratch and coins");
    holds(yuthsaok_deal_count(YUTHSAOK_PRODUCT, 1, 2, 1) == 5 && yuthsaok_line_bytes(YUTHSAOK_KIND_Y1, 7, 1, 2, 1) == 36, "draws and line");
    holds(yuthsaok_is_prime(7) == 1 && yuthsaok_has_inverse(7, 1, one.data(), one.size()) == 0, "prime and inverse");
    holds(yuthsaok_to_residue(15, -2).residue == 13 && yuthsaok_to_score(15, 13).score == -2, "scores");
    holds(std::string(word, word + yuthsaok_refusal_word(YUTHSAOK_DRY, word, sizeof word)) == "dry", "a refusal's word");
}

// Modulo 7 these days are 1, 0, 1 and 1.
void windows() {
    Bytes left = bytes({5, 2, 6, 0}), right = bytes({3, 5, 2, 1}), flags = bytes({1, 0, 1, 1});
    auto one = yuthsaok_window_share(7, left.data(), left.size(), 0, 3), two = yuthsaok_window_share(7, right.data(), right.size(), 0, 3);
    holds(one.number == 0 && two.number == 0 && one.share == 6 && two.share == 3 && (one.share + two.share) % 7 == 2, "a window's shares");
    one = yuthsaok_next_window(7, left.data(), left.size(), 0, 3, one.share);
    two = yuthsaok_next_window(7, right.data(), right.size(), 0, 3, two.share);
    holds(one.number == 0 && two.number == 0 && one.share == 1 && two.share == 1, "the next window's shares");
    holds(yuthsaok_next_window(7, left.data(), left.size(), 1, 3, 1).number == YUTHSAOK_SIZE, "the last window has no next");
    holds(yuthsaok_flags_fit(flags.data(), flags.size()) == 0 && yuthsaok_flags_fit(left.data(), left.size()) == YUTHSAOK_RESIDUE, "flags");
}

} // namespace

int main() {
    product(), system_of_one(), determinant_of_two(), small(), windows();
    std::printf("C++: sessions, small entries and windows as they should be\n");
}
