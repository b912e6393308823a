// Solves a linear program as lpd's cold solve does (docs/ALGORITHMS.md), in the fractions of GMP: the same start, both
// phases and Bland's rule, hence the same pivots, with no limit on numbers.
//
//     g++ -std=c++17 -O3 -march=x86-64-v2 -o gmp_bland gmp_bland.cpp -lgmp
//     gmp_bland [--plain] < model.mps
//
// It reads a text of the profile (docs/FORMATS.md) in free form that has no fault. It walks what lpd walks: a pivot
// lists the columns in which its row is not 0, leaves the rows whose entry in the column that enters is 0, and rows
// have no entries of artificial columns. With --plain a pivot walks all entries of all columns. It prints the answer
// with its value, and then PIVOTS, flips among them, NONZEROS, the entries not 0 that these visit, and BITS, the most
// that a numerator or a denominator had.
#include <gmp.h>

#include <algorithm>
#include <cstdint>
#include <cstdlib>
#include <iostream>
#include <map>
#include <optional>
#include <sstream>
#include <stdexcept>
#include <string>
#include <utility>
#include <vector>

namespace {

class Fraction {
  public:
    Fraction() { mpq_init(q); }
    Fraction(long n) : Fraction() { mpq_set_si(q, n, 1); }
    Fraction(const Fraction &other) : Fraction() { mpq_set(q, other.q); }
    Fraction(Fraction &&other) : Fraction() { mpq_swap(q, other.q); }
    Fraction &operator=(Fraction other) { mpq_swap(q, other.q); return *this; }
    ~Fraction() { mpq_clear(q); }

    int sign() const { return mpq_sgn(q); }
    int compare(const Fraction &other) const { return mpq_cmp(q, other.q); }
    bool operator==(const Fraction &other) const { return mpq_equal(q, other.q) != 0; }
    bool operator<(const Fraction &other) const { return compare(other) < 0; }
    Fraction operator-() const { Fraction r; mpq_neg(r.q, q); return r; }
    Fraction operator+(const Fraction &b) const { Fraction r; mpq_add(r.q, q, b.q); return r; }
    Fraction operator-(const Fraction &b) const { Fraction r; mpq_sub(r.q, q, b.q); return r; }
    Fraction operator*(const Fraction &b) const { Fraction r; mpq_mul(r.q, q, b.q); return r; }
    Fraction operator/(const Fraction &b) const { Fraction r; mpq_div(r.q, q, b.q); return r; }

    // Takes a product off, with no memory but that of `room`.
    void less_product(const Fraction &a, const Fraction &b, Fraction &room) {
        mpq_mul(room.q, a.q, b.q);
        mpq_sub(q, q, room.q);
    }
    void over(const Fraction &b) { mpq_div(q, q, b.q); }
    void negate() { mpq_neg(q, q); }

    size_t bits() const {
        return std::max(mpz_sizeinbase(mpq_numref(q), 2), mpz_sizeinbase(mpq_denref(q), 2));
    }

    std::string shown() const {
        char *text = mpq_get_str(nullptr, 10, q);
        std::string result = text;
        free(text);
        return result;
    }

    // A decimal or a quotient.
    static Fraction of(const std::string &text) {
        Fraction r;
        std::string body = text[0] == '+' ? text.substr(1) : text;
        if (body.find('/') == std::string::npos) {
            size_t mark = body.find_first_of("eEdD");
            long exponent = mark == std::string::npos ? 0 : std::stol(body.substr(mark + 1));
            body = body.substr(0, mark);
            if (size_t point = body.find('.'); point != std::string::npos) {
                exponent -= long(body.size() - point - 1);
                body.erase(point, 1);
            }
            body += std::string(exponent > 0 ? exponent : 0, '0');
            if (exponent < 0) {
                body += "/1" + std::string(-exponent, '0');
            }
        }
        if (mpq_set_str(r.q, body.c_str(), 10) != 0 || mpz_sgn(mpq_denref(r.q)) == 0) {
            throw std::runtime_error("no number: " + text);
        }
        mpq_canonicalize(r.q);
        return r;
    }

  private:
    mpq_t q;
};

using Bound = std::optional<Fraction>;

struct Column {
    Fraction cost;
    Bound lower = Fraction(0), upper;
    std::map<int, Fraction> entries;
    bool lowered = false;
};

struct Row {
    char kind;
    Fraction side;
    Bound range;

    std::pair<Bound, Bound> limits() const {
        Fraction other = side;
        if (range) {
            Fraction size = kind != 'E' && range->sign() < 0 ? -*range : *range;
            other = kind == 'L' ? side - size : side + size;
        }
        if (kind == 'E') {
            return other < side ? std::pair(Bound(other), Bound(side)) : std::pair(Bound(side), Bound(other));
        }
        Bound far = range ? Bound(other) : Bound();
        return kind == 'L' ? std::pair(far, Bound(side)) : std::pair(Bound(side), far);
    }
};

// A model, and the reading of its text.
class Model {
  public:
    bool greatest = false;
    Fraction offset;
    std::vector<Row> rows;
    std::vector<Column> columns;

    void read(std::istream &text) {
        for (std::string line; part != "ENDATA" && std::getline(text, line);) {
            std::istringstream stream(line);
            std::vector<std::string> words;
            for (std::string word; stream >> word;) {
                words.push_back(word);
            }
            if (words.empty() || line[0] == '*') {
                continue;
            }
            if (line[0] == ' ' || line[0] == '\t') {
                card(words);
                continue;
            }
            part = words[0];
            set.reset();
            if (part == "OBJSENSE" && words.size() > 1) {
                card({words[1]});
            }
        }
    }

  private:
    std::string part, objective;
    std::optional<std::string> set;
    std::map<std::string, int> row_of, column_of;

    void card(const std::vector<std::string> &words) {
        if (part == "OBJSENSE") {
            greatest = words[0].substr(0, 3) == "MAX";
        } else if (part == "ROWS") {
            add_row(words[0][0], words[1]);
        } else if (part == "COLUMNS") {
            auto [at, is_new] = column_of.emplace(words[0], columns.size());
            if (is_new) {
                columns.emplace_back();
            }
            int j = at->second;
            pairs(words, 1, [&](const std::string &row, const Fraction &value) { enter(row, j, value); });
        } else if (part == "RHS" || part == "RANGES") {
            size_t from = words.size() % 2;
            if (is_of_set(from == 1 ? words[0] : "")) {
                pairs(words, from, [&](const std::string &row, const Fraction &value) { side(row, value); });
            }
        } else if (part == "BOUNDS") {
            bound(words);
        }
    }

    template <class Take> void pairs(const std::vector<std::string> &words, size_t from, Take take) {
        for (size_t i = from; i + 1 < words.size(); i += 2) {
            take(words[i], Fraction::of(words[i + 1]));
        }
    }

    // Whether a card's set is that of the section's first card.
    bool is_of_set(const std::string &name) {
        if (!set) {
            set = name;
        }
        return *set == name;
    }

    // Rows of type N besides the objective have a name and no place: they have no limits, so no step depends on them.
    void add_row(char kind, const std::string &name) {
        if (kind == 'N' && objective.empty()) {
            objective = name;
        } else if (kind == 'N') {
            row_of[name] = -1;
        } else {
            row_of[name] = int(rows.size());
            rows.push_back({kind, {}, {}});
        }
    }

    void enter(const std::string &row, int j, const Fraction &value) {
        if (row == objective) {
            columns[j].cost = value;
        } else if (int i = row_of.at(row); i >= 0 && value.sign() != 0) {
            columns[j].entries[i] = value;
        }
    }

    void side(const std::string &row, const Fraction &value) {
        if (row == objective) {
            offset = -value;
        } else if (int i = row_of.at(row); i >= 0 && part == "RHS") {
            rows[i].side = value;
        } else if (i >= 0) {
            rows[i].range = value;
        }
    }

    // A number, or none where it is infinite; the sign is told too.
    static Bound limit(const std::string &text, int &sign) {
        size_t from = text.find_first_not_of("+-");
        bool is_word = from != std::string::npos && (text[from] == 'i' || text[from] == 'I');
        Fraction value = is_word ? Fraction(text[0] == '-' ? -1 : 1) : Fraction::of(text);
        sign = value.sign();
        static const Fraction infinite = Fraction::of("1e20");
        bool is_infinite = is_word || !((sign < 0 ? -value : value) < infinite);
        return is_infinite ? Bound() : Bound(value);
    }

    void bound(const std::vector<std::string> &words) {
        const std::string &kind = words[0];
        bool has_number = kind == "UP" || kind == "LO" || kind == "FX";
        size_t least = has_number ? 3 : 2;
        bool has_set = words.size() > least;
        if (!is_of_set(has_set ? words[1] : "")) {
            return;
        }
        Column &column = columns[column_of.at(words[has_set ? 2 : 1])];
        int sign = 0;
        Bound value = has_number ? limit(words[has_set ? 3 : 2], sign) : Bound();
        if (kind == "UP" && sign < 0 && !column.lowered) {
            column.lower.reset();
        }
        if (kind != "UP" && kind != "PL") {
            column.lower = value;
            column.lowered = true;
        }
        if (kind != "LO" && kind != "MI") {
            column.upper = value;
        }
    }
};

enum class Status { Basic, AtLower, AtUpper, AtZero };

struct Best {
    Fraction ratio;
    int column, place;
    Status to;
};

class Tableau {
  public:
    uint64_t pivots = 0, nonzeros = 0;
    size_t bits = 0;

    Tableau(const Model &model, bool plain)
        : plain(plain), n(int(model.columns.size())), m(int(model.rows.size())), width(n + 2 * m), lower(width),
          upper(width), cost(width), value(width), reduced(width), status(width, Status::AtLower), basic(m),
          is_turned(m), rows(m, std::vector<Fraction>(plain ? width : n + m)) {
        for (int j = 0; j < n; j++) {
            lower[j] = model.columns[j].lower;
            upper[j] = model.columns[j].upper;
            cost[j] = model.greatest ? -model.columns[j].cost : model.columns[j].cost;
            status[j] = lower[j] ? Status::AtLower : upper[j] ? Status::AtUpper : Status::AtZero;
            value[j] = stand(j);
        }
        for (int i = 0; i < m; i++) {
            std::tie(lower[n + i], upper[n + i]) = model.rows[i].limits();
        }
    }

    // The first column whose bounds clash, if there is one.
    bool clashes() const {
        for (int j = 0; j < n; j++) {
            if (lower[j] && upper[j] && *upper[j] < *lower[j]) {
                return true;
            }
        }
        return false;
    }

    const char *solve(const Model &model) {
        start(model);
        std::vector<Fraction> wanted(width);
        bool has_wanted = false;
        for (int i = 0; i < m; i++) {
            if (basic[i] >= n + m) {
                wanted[basic[i]] = 1;
                has_wanted = true;
            }
        }
        if (has_wanted) {
            price(wanted);
            run();
            for (int i = 0; i < m; i++) {
                if (basic[i] >= n + m && value[basic[i]].sign() != 0) {
                    return "INFEASIBLE";
                }
            }
        }
        for (int k = n + m; k < width; k++) {
            lower[k] = upper[k] = Fraction(0);
        }
        price(cost);
        return run() ? "OPTIMAL" : "UNBOUNDED";
    }

    Fraction objective(const Model &model) const {
        Fraction sum = model.offset;
        for (int j = 0; j < n; j++) {
            sum = sum + model.columns[j].cost * value[j];
        }
        return sum;
    }

  private:
    const bool plain;
    const int n, m, width;
    std::vector<Bound> lower, upper;
    std::vector<Fraction> cost, value, reduced;
    std::vector<Status> status;
    std::vector<int> basic;
    std::vector<bool> is_turned;
    std::vector<std::vector<Fraction>> rows;
    Fraction room;

    void less_product(Fraction &from, const Fraction &a, const Fraction &b) {
        from.less_product(a, b, room);
        bits = std::max(bits, from.bits());
    }

    Fraction stand(int k) const {
        return status[k] == Status::AtLower && lower[k]   ? *lower[k]
               : status[k] == Status::AtUpper && upper[k] ? *upper[k]
                                                          : Fraction(0);
    }

    // The entry of an artificial column is that of its row's logical, or its negative.
    Fraction entry(int i, int k) const {
        if (plain || k < n + m) {
            return rows[i][k];
        }
        return is_turned[k - n - m] ? -rows[i][k - m] : rows[i][k - m];
    }

    void start(const Model &model) {
        std::vector<Fraction> sums(m);
        for (int j = 0; j < n; j++) {
            for (const auto &[i, a] : model.columns[j].entries) {
                sums[i] = sums[i] + a * value[j];
                rows[i][j] = a;
            }
        }
        for (int i = 0; i < m; i++) {
            int logical = n + i, artificial = n + m + i;
            bool below = lower[logical] && sums[i] < *lower[logical];
            bool above = !below && upper[logical] && *upper[logical] < sums[i];
            is_turned[i] = below;
            rows[i][logical] = below ? -1 : 1;
            if (plain) {
                rows[i][artificial] = 1;
            }
            for (int j = 0; j < n && !below; j++) {
                rows[i][j].negate();
            }
            lower[artificial] = Fraction(0);
            if (below || above) {
                status[logical] = below ? Status::AtLower : Status::AtUpper;
                value[logical] = stand(logical);
                value[artificial] = below ? *lower[logical] - sums[i] : sums[i] - *upper[logical];
                basic[i] = artificial;
            } else {
                upper[artificial] = Fraction(0);
                value[logical] = sums[i];
                basic[i] = logical;
            }
            status[basic[i]] = Status::Basic;
        }
    }

    void price(const std::vector<Fraction> &costs) {
        for (int k = 0; k < width; k++) {
            reduced[k] = costs[k];
            for (int i = 0; i < m; i++) {
                if (plain || costs[basic[i]].sign() != 0) {
                    less_product(reduced[k], costs[basic[i]], entry(i, k));
                }
            }
        }
    }

    bool may_enter(int k, bool &up) const {
        int sign = reduced[k].sign();
        bool rises = sign < 0 && (status[k] == Status::AtLower || status[k] == Status::AtZero);
        bool falls = sign > 0 && (status[k] == Status::AtUpper || status[k] == Status::AtZero);
        up = rises;
        return (rises || falls) && !(lower[k] && upper[k] && *lower[k] == *upper[k]);
    }

    std::optional<Best> best(int col, bool up) const {
        std::optional<Best> least;
        if (lower[col] && upper[col]) {
            least = Best{*upper[col] - *lower[col], col, -1, up ? Status::AtUpper : Status::AtLower};
        }
        for (int i = 0; i < m; i++) {
            Fraction t = entry(i, col);
            int k = basic[i], way = up ? t.sign() : -t.sign();
            if (way == 0 || !(way < 0 ? upper[k] : lower[k])) {
                continue;
            }
            Fraction gap = way < 0 ? *upper[k] - value[k] : value[k] - *lower[k];
            Best next{gap / (t.sign() < 0 ? -t : t), k, i, way < 0 ? Status::AtUpper : Status::AtLower};
            int order = least ? next.ratio.compare(least->ratio) : -1;
            if (order < 0 || (order == 0 && k < least->column)) {
                least = next;
            }
        }
        return least;
    }

    // Flips and pivots up to the end, and whether that is an optimum.
    bool run() {
        while (true) {
            int col = 0;
            bool up = false;
            while (col < width && !may_enter(col, up)) {
                col++;
            }
            if (col == width) {
                return true;
            }
            std::optional<Best> next = best(col, up);
            if (!next) {
                return false;
            }
            pivots++;
            Fraction theta = up ? next->ratio : -next->ratio;
            move(col, theta, next->place);
            if (next->place < 0) {
                status[col] = next->to;
                value[col] = stand(col);
            } else {
                pivot(next->place, col, theta, next->to);
            }
        }
    }

    void move(int col, const Fraction &theta, int but) {
        for (int i = 0; i < m; i++) {
            Fraction t = entry(i, col);
            if (i != but && (plain || t.sign() != 0)) {
                less_product(value[basic[i]], t, theta);
                nonzeros += t.sign() != 0;
            }
        }
    }

    void pivot(int place, int col, const Fraction &theta, Status to) {
        value[col] = value[col] + theta;
        turn(place, col);
        Fraction times = reduced[col];
        for (int k = 0; k < width; k++) {
            Fraction t = entry(place, k);
            if (plain || t.sign() != 0) {
                less_product(reduced[k], times, t);
                nonzeros += t.sign() != 0;
            }
        }
        int leaving = basic[place];
        basic[place] = col;
        status[col] = Status::Basic;
        status[leaving] = to;
        value[leaving] = stand(leaving);
        if (leaving >= n + m) {
            lower[leaving] = upper[leaving] = Fraction(0);
        }
    }

    void turn(int place, int col) {
        std::vector<Fraction> &row = rows[place];
        std::vector<int> listed;
        Fraction divisor = entry(place, col);
        for (int k = 0; k < int(row.size()); k++) {
            if (plain || row[k].sign() != 0) {
                row[k].over(divisor);
                listed.push_back(k);
                nonzeros += row[k].sign() != 0 && k < n + m;
            }
        }
        for (int i = 0; i < m; i++) {
            Fraction times = entry(i, col);
            if (i == place || (!plain && times.sign() == 0)) {
                continue;
            }
            for (int k : listed) {
                less_product(rows[i][k], times, row[k]);
                nonzeros += times.sign() != 0 && row[k].sign() != 0 && k < n + m;
            }
        }
    }
};

} // namespace

int main(int count, char **words) {
    bool plain = count == 2 && std::string(words[1]) == "--plain";
    if (count > 2 || (count == 2 && !plain)) {
        std::cerr << "gmp_bland [--plain] < model.mps\n";
        return 2;
    }
    try {
        Model model;
        model.read(std::cin);
        Tableau tableau(model, plain);
        std::string answer = tableau.clashes() ? "INFEASIBLE" : tableau.solve(model);
        if (answer == "OPTIMAL") {
            answer += " " + tableau.objective(model).shown();
        }
        std::cout << answer << "\nPIVOTS " << tableau.pivots << "\nNONZEROS " << tableau.nonzeros << "\nBITS "
                  << tableau.bits << "\n";
    } catch (const std::exception &fault) {
        std::cerr << "gmp_bland: " << fault.what() << "\n";
        return 1;
    }
}
