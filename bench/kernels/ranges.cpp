// Queries over plain columns, as a programmer writes them by hand: rows within ranges, counted, summed up and grouped.
//
//   ranges ROUNDS COLUMN ..      each COLUMN a file of little-endian integers, name.4 of 32 bits or name.8 of 64
//
// Each line of standard input is a query of numbers: how many ranges, then column, least and greatest of each; how many
// orders, then two columns of each, the first of which is to be less; the grouping column or -1; how many sums, then
// the column of each, where -1 is the number of rows. The answer is a line: nanoseconds of the quickest round, then the
// rows of the answer, with `;` between rows and `,` between values. Rows are taken in blocks that the nearest cache
// holds, so that the compiler makes vectors of each loop. Columns of ranges, orders and groups have 32 bits; groups are
// small numbers from 0.
#include <algorithm>
#include <chrono>
#include <cstdint>
#include <cstdio>
#include <fstream>
#include <iostream>
#include <sstream>
#include <string>
#include <vector>

constexpr size_t BLOCK = 4096;

struct Column {
    std::vector<int32_t> narrow;
    std::vector<int64_t> wide;
    size_t rows() const { return narrow.empty() ? wide.size() : narrow.size(); }
};

struct Range { size_t column; int64_t least, greatest; };
struct Order { size_t less, greater; };

struct Query {
    std::vector<Range> ranges;
    std::vector<Order> orders;
    int group = -1;
    std::vector<int> sums;
};

template <class Number>
static std::vector<Number> numbers_of(const std::string& name) {
    std::ifstream file(name, std::ios::binary | std::ios::ate);
    std::vector<Number> numbers(static_cast<size_t>(file.tellg()) / sizeof(Number));
    file.seekg(0);
    file.read(reinterpret_cast<char*>(numbers.data()), static_cast<std::streamsize>(numbers.size() * sizeof(Number)));
    return numbers;
}

static Column column_of(const std::string& name) {
    if (name.back() == '8') return {{}, numbers_of<int64_t>(name)};
    return {numbers_of<int32_t>(name), {}};
}

static bool reads(std::istream& line, Query& query) {
    size_t count = 0;
    if (!(line >> count)) return false;
    query.ranges.resize(count);
    for (Range& range : query.ranges) line >> range.column >> range.least >> range.greatest;
    line >> count;
    query.orders.resize(count);
    for (Order& order : query.orders) line >> order.less >> order.greater;
    line >> query.group >> count;
    query.sums.resize(count);
    for (int& sum : query.sums) line >> sum;
    return bool(line);
}

// Which rows of a block are found: a mask of all bits for each row.
static void find(const std::vector<Column>& columns, const Query& query, size_t from, size_t rows, uint32_t* found) {
    std::fill(found, found + rows, ~0u);
    for (const Range& range : query.ranges) {
        const int32_t* values = columns[range.column].narrow.data() + from;
        const int32_t least = int32_t(std::max<int64_t>(range.least, INT32_MIN));
        const int32_t greatest = int32_t(std::min<int64_t>(range.greatest, INT32_MAX));
        for (size_t i = 0; i < rows; i++) found[i] &= -uint32_t(values[i] >= least) & -uint32_t(values[i] <= greatest);
    }
    for (const Order& order : query.orders) {
        const int32_t* less = columns[order.less].narrow.data() + from;
        const int32_t* greater = columns[order.greater].narrow.data() + from;
        for (size_t i = 0; i < rows; i++) found[i] &= -uint32_t(less[i] < greater[i]);
    }
}

template <class Number>
static int64_t sum_of(const Number* values, const uint32_t* found, size_t rows) {
    int64_t sum = 0;
    for (size_t i = 0; i < rows; i++) sum += found[i] ? int64_t(values[i]) : 0;
    return sum;
}

template <class Number>
static void add_groups(const Number* values, const int32_t* groups, const uint32_t* found, size_t rows, int64_t* sums) {
    for (size_t i = 0; i < rows; i++) sums[groups[i]] += found[i] ? int64_t(values[i]) : 0;
}

static int64_t count_of(const uint32_t* found, size_t rows) {
    uint32_t count = 0;
    for (size_t i = 0; i < rows; i++) count += found[i] & 1;
    return count;
}

// The sums of each group, the number of its rows first; one group where the query has none.
static std::vector<std::vector<int64_t>> answer(const std::vector<Column>& columns, const Query& query, size_t groups) {
    std::vector<std::vector<int64_t>> totals(1 + query.sums.size(), std::vector<int64_t>(groups, 0));
    const size_t rows = columns[0].rows();
    static uint32_t found[BLOCK];
    for (size_t from = 0; from < rows; from += BLOCK) {
        const size_t here = std::min(BLOCK, rows - from);
        find(columns, query, from, here, found);
        const int32_t* keys = query.group < 0 ? nullptr : columns[size_t(query.group)].narrow.data() + from;
        if (keys) for (size_t i = 0; i < here; i++) totals[0][size_t(keys[i])] += found[i] & 1;
        else totals[0][0] += count_of(found, here);
        for (size_t s = 0; s < query.sums.size(); s++) {
            if (query.sums[s] < 0) continue;
            const Column& column = columns[size_t(query.sums[s])];
            int64_t* sums = totals[1 + s].data();
            if (column.wide.empty()) {
                const int32_t* values = column.narrow.data() + from;
                if (keys) add_groups(values, keys, found, here, sums); else sums[0] += sum_of(values, found, here);
            } else {
                const int64_t* values = column.wide.data() + from;
                if (keys) add_groups(values, keys, found, here, sums); else sums[0] += sum_of(values, found, here);
            }
        }
    }
    return totals;
}

static void print(const Query& query, const std::vector<std::vector<int64_t>>& totals) {
    const char* between = " ";
    for (size_t group = 0; group < totals[0].size(); group++) {
        const int64_t rows = totals[0][group];
        if (query.group >= 0 && rows == 0) continue;
        std::printf("%s", between);
        if (query.group >= 0) std::printf("%zu%s", group, query.sums.empty() ? "" : ",");
        for (size_t s = 0; s < query.sums.size(); s++) {
            const char* comma = s + 1 < query.sums.size() ? "," : "";
            if (query.sums[s] >= 0 && rows == 0) std::printf("NULL%s", comma);
            else std::printf("%lld%s", (long long)(query.sums[s] < 0 ? rows : totals[1 + s][group]), comma);
        }
        between = ";";
    }
    std::printf("\n");
}

int main(int count, char** words) {
    const int rounds = std::stoi(words[1]);
    std::vector<Column> columns;
    for (int i = 2; i < count; i++) columns.push_back(column_of(words[i]));
    for (std::string text; std::getline(std::cin, text);) {
        std::istringstream line(text);
        Query query;
        if (!reads(line, query)) return 1;
        size_t groups = 1;
        if (query.group >= 0) {
            const std::vector<int32_t>& keys = columns[size_t(query.group)].narrow;
            groups = size_t(*std::max_element(keys.begin(), keys.end())) + 1;
        }
        double least = 1e18;
        std::vector<std::vector<int64_t>> totals;
        for (int round = 0; round < rounds; round++) {
            const auto start = std::chrono::steady_clock::now();
            totals = answer(columns, query, groups);
            const std::chrono::duration<double, std::nano> taken = std::chrono::steady_clock::now() - start;
            least = std::min(least, taken.count());
        }
        std::printf("%.0f", least);
        print(query, totals);
    }
}
