// Checks the two functions that the load module calls, room_home and room_sum, as C++ sees them:
// through include/room_table.h and the static library. What they must give is computed here from the
// specification's sentences, in wider numbers and by tests of another kind than the library's.
#include "room_table.h"

#include <algorithm>
#include <cinttypes>
#include <cstdint>
#include <cstdio>
#include <random>
#include <vector>

namespace {

std::uint64_t calls = 0;
std::uint64_t wrong = 0; // calls of the check under way
int passed = 0;
int failed = 0;

void expect(const char *function, std::uint32_t a, std::uint32_t b, std::uint32_t wanted, std::uint32_t got) {
    ++calls;
    if (wanted != got && ++wrong == 1) {
        std::printf("%s(%" PRIu32 ", %" PRIu32 ") is %" PRIu32 ", not %" PRIu32 "\n", function, a, b, got, wanted);
    }
}

// One check: all the calls of a body are right.
template <typename Body> void check(Body body) {
    wrong = 0;
    body();
    ++(wrong == 0 ? passed : failed);
}

// "Their number c is a power of two from 8 to 4,096", from 1 on by document 02, "A2".
bool size_allowed(std::uint32_t c) {
    for (std::uint32_t power = 1; power <= 4096; power *= 2) {
        if (c == power) {
            return true;
        }
    }
    return false;
}

// "Home of a key: (key x 40,503) mod 65,536, divided by (65,536 / c), rounded down", "giving 65,535
// where c or the key is not allowed"; "Keys 1 to 65,534 are live."
void home(std::uint32_t key, std::uint32_t c) {
    std::uint32_t wanted = 65535;
    if (size_allowed(c) && key >= 1 && key <= 65534) {
        const std::uint64_t hash = std::uint64_t{key} * 40503 % 65536;
        wanted = static_cast<std::uint32_t>(hash / (65536 / c));
    }
    expect("room_home", key, c, wanted, room_home(key, c));
}

std::uint32_t largest_sum = 0; // of all that room_sum gave

void expect_sum(std::uint32_t a, std::uint32_t b, std::uint32_t wanted) {
    const std::uint32_t got = room_sum(static_cast<std::uint16_t>(a), static_cast<std::uint16_t>(b));
    largest_sum = std::max(largest_sum, got);
    expect("room_sum", a, b, wanted, got);
}

// "Adding two totals gives their sum, or 65,535 if the sum is larger." "Totals 0 to 65,534 are true.
// Total 65,535 is pinned: at least that much." "The sum of two totals must therefore also report whether
// a true first total became pinned; the C++ caller gets 65,536 more if so."
void sum(std::uint32_t a, std::uint32_t b) {
    const std::uint32_t whole = a + b;
    std::uint32_t wanted = whole > 65535 ? 65535 : whole;
    if (a < 65535 && whole >= 65535) {
        wanted += 65536;
    }
    expect_sum(a, b, wanted);
}

// Every key, and some that have more than sixteen bits, with each allowed size and its neighbours and
// the powers of two on either side; then every size up to 70,000 with keys at the ends of their range.
void check_homes() {
    std::vector<std::uint32_t> sizes = {0, 1, 2, 3, 4, 5, 6, 12, 65535, 0x80000000, 0xffffffff};
    for (std::uint32_t power = 8; power <= 65536; power *= 2) {
        sizes.insert(sizes.end(), {power - 1, power, power + 1, power * 3});
    }
    for (const std::uint32_t c : sizes) {
        check([c] {
            for (std::uint32_t key = 0; key <= 70000; ++key) {
                home(key, c);
            }
        });
    }
    for (const std::uint32_t key : {0u, 1u, 2u, 9u, 32768u, 65533u, 65534u, 65535u, 65536u, 65537u, 131073u, 0x80000001u, 0xffffffffu}) {
        check([key] {
            for (std::uint32_t c = 0; c <= 70000; ++c) {
                home(key, c);
            }
        });
    }
}

// Sums worked by hand; for every total, the other ones that bring the sum to one number near the
// ceiling; every total with 0 and with a pinned one, in either order; a million pairs at random, from a
// seed that is always the same; and what was the largest of all these.
void check_sums() {
    check([] {
        expect_sum(0, 0, 0);
        expect_sum(65534, 0, 65534);
        expect_sum(0, 65534, 65534);
        expect_sum(65534, 1, 131071);
        expect_sum(1, 65534, 131071);
        expect_sum(40, 65500, 131071);
        expect_sum(65534, 65534, 131071);
        // Only a first total is told of.
        expect_sum(0, 65535, 131071);
        expect_sum(65535, 0, 65535);
        expect_sum(65534, 65535, 131071);
        expect_sum(65535, 65534, 65535);
        expect_sum(65535, 65535, 65535);
    });
    for (std::uint32_t whole = 65535 - 64; whole <= 65535 + 64; ++whole) {
        check([whole] {
            for (std::uint32_t a = 0; a <= 65535; ++a) {
                if (a <= whole && whole - a <= 65535) {
                    sum(a, whole - a);
                }
            }
        });
    }
    check([] {
        for (std::uint32_t a = 0; a <= 65535; ++a) {
            sum(a, 0);
            sum(0, a);
            sum(a, 65535);
            sum(65535, a);
        }
    });
    check([] {
        std::mt19937 random(20261115);
        for (int i = 0; i < 1000000; ++i) {
            const std::uint32_t bits = static_cast<std::uint32_t>(random());
            sum(bits >> 16, bits & 0xffff);
        }
    });
    check([] {
        if (largest_sum != 131071) {
            ++wrong;
            std::printf("the largest sum is %" PRIu32 ", not 131071\n", largest_sum);
        }
    });
}

} // namespace

int main() {
    check_homes();
    std::printf("room_home: %" PRIu64 " calls\n", calls);
    calls = 0;
    check_sums();
    std::printf("room_sum: %" PRIu64 " calls\n", calls);
    std::printf("%d passed, %d failed\n", passed, failed);
    return failed == 0 ? 0 : 1;
}
