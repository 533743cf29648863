// The scans `code < c` to a mask of the rows, in the layouts of the papers, and what memory gives at most.
//
//   scans ROWS ROUNDS PART WIDTH ..     codes of each width, of which this part is found
//
//   V         BitWeaving/V: a segment is 256 rows, a plane of it four words, and planes lie in groups of four. After a
//             group a segment is left where no row is equal so far.
//   V-branch  the same with a branch on the constant's bit in place of a mask of it.
//   V-all     V that reads every plane.
//   H         BitWeaving/H: a word has as many codes as fit, each below a bit that is free for a comparison. A segment
//             of codes of k bits is k + 1 words, whose comparisons are shifted into one word.
//   S         ByteSlice: a slice is a byte of each code, a segment 32 rows, left after any slice.
//   P         a loop over codes of 32 bits, to a bit a row.
//   P-count   a loop that counts them, without a mask.
//   count     counting the bits of the mask.
//   memory    reading a column of 32-bit codes, and adding its words up.
//
// Each line: the kernel, the bits of a code, nanoseconds a row of the quickest round, and bytes of codes a row. All
// layouts have to find the same number of rows. There are no intrinsics but the one that takes a bit from each byte.
#include <algorithm>
#include <chrono>
#include <cstdint>
#include <cstdio>
#include <cstdlib>
#include <cstring>
#include <random>
#include <string>
#include <vector>
#include <emmintrin.h>

using Words = uint64_t __attribute__((vector_size(16), aligned(8)));
using Bytes = uint8_t __attribute__((vector_size(16), aligned(1)));
using Mask = std::vector<uint64_t>;
using Codes = std::vector<uint32_t>;

struct Plane { uint64_t words[4]; };

struct Planes {
    uint32_t width;
    size_t segments;
    std::vector<std::vector<Plane>> groups;
    size_t in_group(size_t group) const { return std::min<size_t>(4, width - 4 * group); }
};

static Planes planes_of(const Codes& codes, uint32_t width) {
    Planes planes{width, codes.size() / 256, {}};
    for (uint32_t first = 0; first < width; first += 4)
        planes.groups.emplace_back(planes.segments * planes.in_group(first / 4));
    for (size_t row = 0; row < codes.size(); row++)
        for (uint32_t bit = 0; bit < width; bit++)
            if (codes[row] >> (width - 1 - bit) & 1) {
                Plane& plane = planes.groups[bit / 4][row / 256 * planes.in_group(bit / 4) + bit % 4];
                plane.words[row % 256 / 64] |= 1ull << (row % 64);
            }
    return planes;
}

// One plane: the rows that are below from here on, and those that are still equal.
template <bool BRANCHES>
static inline void step(const Words* plane, uint32_t bits, Words (&less)[2], Words (&equal)[2]) {
    for (int half = 0; half < 2; half++) {
        if (BRANCHES) {
            if (int32_t(bits) < 0) { less[half] |= equal[half] & ~plane[half]; equal[half] &= plane[half]; }
            else { equal[half] &= ~plane[half]; }
        } else {
            const Words all = Words{} + uint64_t(int64_t(int32_t(bits)) >> 63);
            less[half] |= equal[half] & all & ~plane[half];
            equal[half] &= ~(plane[half] ^ all);
        }
    }
}

template <bool STOPS, bool BRANCHES>
__attribute__((noinline)) static void scan_planes(const Planes& planes, uint32_t constant, Mask& found) {
    for (size_t segment = 0; segment < planes.segments; segment++) {
        Words less[2] = {}, equal[2] = {~Words{}, ~Words{}};
        uint32_t bits = constant << (32 - planes.width);
        for (size_t group = 0; group < planes.groups.size(); group++) {
            const size_t count = planes.in_group(group);
            const Plane* plane = planes.groups[group].data() + segment * count;
            for (size_t i = 0; i < count; i++, bits <<= 1)
                step<BRANCHES>(reinterpret_cast<const Words*>(plane[i].words), bits, less, equal);
            const Words any = equal[0] | equal[1];
            if (STOPS && (any[0] | any[1]) == 0) break;
        }
        std::memcpy(&found[4 * segment], less, sizeof less);
    }
}

struct Sections {
    uint32_t width, rows;
    size_t segments;
    std::vector<uint64_t> words;
};

static Sections sections_of(const Codes& codes, uint32_t width) {
    const uint32_t words = width + 1, rows = 64 / words * words;
    const size_t segments = (codes.size() + rows - 1) / rows;
    Sections made{width, rows, segments, std::vector<uint64_t>(segments * words)};
    for (size_t row = 0; row < codes.size(); row++) {
        const size_t here = row % rows;
        made.words[row / rows * words + here % words] |= uint64_t(codes[row]) << (here / words * words);
    }
    return made;
}

__attribute__((noinline)) static void scan_sections(const Sections& sections, uint32_t constant, Mask& found) {
    const uint32_t words = sections.width + 1;
    uint64_t ones = 0;
    for (uint32_t at = 0; at + words <= 64; at += words) ones |= 1ull << at;
    const uint64_t below = constant * ones, greatest = ((1ull << sections.width) - 1) * ones;
    const uint64_t free = ones << sections.width;
    uint64_t rest = 0;
    uint32_t filled = 0;
    size_t word = 0;
    for (size_t segment = 0; segment < sections.segments; segment++) {
        const uint64_t* here = sections.words.data() + segment * words;
        uint64_t rows = 0;
        for (uint32_t i = 0; i < words; i++) rows |= (((here[i] ^ greatest) + below) & free) >> (sections.width - i);
        rest |= rows << filled;
        filled += sections.rows;
        if (filled < 64) continue;
        if (word < found.size()) found[word++] = rest;
        filled -= 64;
        rest = filled == 0 ? 0 : rows >> (sections.rows - filled);
    }
    if (word < found.size()) found[word] = rest;
}

struct Slices {
    uint32_t width;
    size_t segments;
    std::vector<std::vector<uint8_t>> slices;
};

static Slices slices_of(const Codes& codes, uint32_t width) {
    const uint32_t count = (width + 7) / 8;
    Slices made{width, codes.size() / 32, {}};
    for (uint32_t slice = 0; slice < count; slice++) {
        made.slices.emplace_back(codes.size());
        for (size_t row = 0; row < codes.size(); row++) {
            const uint64_t shifted = uint64_t(codes[row]) << (8 * count - width);
            made.slices[slice][row] = uint8_t(shifted >> (8 * (count - 1 - slice)));
        }
    }
    return made;
}

static inline uint32_t bits_of(Bytes half) { return uint32_t(_mm_movemask_epi8(reinterpret_cast<__m128i>(half))); }

__attribute__((noinline)) static void scan_slices(const Slices& slices, uint32_t constant, Mask& found) {
    const size_t count = slices.slices.size();
    const uint64_t shifted = uint64_t(constant) << (8 * count - slices.width);
    uint32_t* words = reinterpret_cast<uint32_t*>(found.data());
    for (size_t segment = 0; segment < slices.segments; segment++) {
        uint32_t less = 0, equal = ~0u;
        for (size_t slice = 0; slice < count && equal != 0; slice++) {
            const Bytes* bytes = reinterpret_cast<const Bytes*>(slices.slices[slice].data() + 32 * segment);
            const Bytes wanted = Bytes{} + uint8_t(shifted >> (8 * (count - 1 - slice)));
            const uint32_t below = bits_of(Bytes(bytes[0] < wanted)) | bits_of(Bytes(bytes[1] < wanted)) << 16;
            const uint32_t same = bits_of(Bytes(bytes[0] == wanted)) | bits_of(Bytes(bytes[1] == wanted)) << 16;
            less |= equal & below;
            equal &= same;
        }
        words[segment] = less;
    }
}

__attribute__((noinline)) static void scan_codes(const Codes& codes, uint32_t constant, Mask& found) {
    for (size_t word = 0; word < codes.size() / 64; word++) {
        uint64_t bits = 0;
        for (uint32_t i = 0; i < 64; i++) bits |= uint64_t(codes[64 * word + i] < constant) << i;
        found[word] = bits;
    }
}

__attribute__((noinline)) static uint64_t count_codes(const Codes& codes, uint32_t constant) {
    uint32_t count = 0;
    for (uint32_t code : codes) count += code < constant;
    return count;
}

__attribute__((noinline)) static uint64_t sum_words(const Codes& codes) {
    const uint64_t* words = reinterpret_cast<const uint64_t*>(codes.data());
    uint64_t sum = 0;
    for (size_t i = 0; i < codes.size() / 2; i++) sum += words[i];
    return sum;
}

__attribute__((noinline)) static uint64_t count_bits(const Mask& found) {
    uint64_t count = 0;
    for (uint64_t word : found) count += uint64_t(__builtin_popcountll(word));
    return count;
}

struct Bench {
    size_t rows;
    int rounds;
    volatile uint64_t kept = 0;

    template <class Call>
    void time(const char* name, uint32_t width, double bytes, Call call) {
        double least = 1e18;
        for (int round = 0; round < rounds; round++) {
            const auto start = std::chrono::steady_clock::now();
            kept = kept + call();
            const std::chrono::duration<double, std::nano> taken = std::chrono::steady_clock::now() - start;
            least = std::min(least, taken.count());
        }
        std::printf("%s %u %.5f %.3f\n", name, width, least / double(rows), bytes);
    }
};

static void expect(uint64_t found, uint64_t wanted) {
    if (found == wanted) return;
    std::fprintf(stderr, "a layout finds %llu rows of %llu\n", (unsigned long long)found, (unsigned long long)wanted);
    std::exit(1);
}

static void time_width(Bench& bench, uint32_t width, double part, std::mt19937_64& next) {
    Codes codes(bench.rows);
    for (uint32_t& code : codes) code = uint32_t(next() >> (64 - width));
    const uint32_t constant = uint32_t(part * double(1ull << width));
    const uint64_t wanted = count_codes(codes, constant);
    Mask found(bench.rows / 64);
    const Planes planes = planes_of(codes, width);
    const Sections sections = sections_of(codes, width);
    const Slices slices = slices_of(codes, width);
    const double slice_bytes = double(slices.slices.size());
    const auto in_planes = [&](const char* name, auto scan) {
        bench.time(name, width, width / 8.0, [&] { scan(planes, constant, found); return found[0]; });
        expect(count_bits(found), wanted);
    };
    in_planes("V", scan_planes<true, false>);
    in_planes("V-branch", scan_planes<true, true>);
    in_planes("V-all", scan_planes<false, false>);
    const double section_bytes = 8.0 * (width + 1) / sections.rows;
    bench.time("H", width, section_bytes, [&] { scan_sections(sections, constant, found); return found[0]; });
    expect(count_bits(found), wanted);
    bench.time("S", width, slice_bytes, [&] { scan_slices(slices, constant, found); return found[0]; });
    expect(count_bits(found), wanted);
    bench.time("P", width, 4, [&] { scan_codes(codes, constant, found); return found[0]; });
    expect(count_bits(found), wanted);
    bench.time("P-count", width, 4, [&] { return count_codes(codes, constant); });
    bench.time("count", width, 0.125, [&] { return count_bits(found); });
    bench.time("memory", width, 4, [&] { return sum_words(codes); });
}

int main(int count, char** words) {
    if (count < 5) return 64;
    Bench bench{std::stoul(words[1]) / 256 * 256, std::stoi(words[2])};
    std::mt19937_64 next(7);
    for (int i = 4; i < count; i++) time_width(bench, uint32_t(std::stoul(words[i])), std::stod(words[3]), next);
}
