// The answers to a script of calls, worked out apart from the crates. It reads the script that the program
// `trial` reads and prints the same answers (README.md has the commands). The book is a list of records. All
// figures of a line or a plan come from a list of the states of its items or places, each state tried by itself;
// no figure of a line is made from figures of other lines. The failure row comes from a list of all orders in
// which the items can fail. Only the low and the high survival figure follow the rule that defines them; they
// are held against the exact sum. Where such a check fails, `check failed` is printed, which `trial` never does.
#include <algorithm>
#include <array>
#include <cstdint>
#include <cstdio>
#include <cstdlib>
#include <iostream>
#include <map>
#include <optional>
#include <sstream>
#include <string>
#include <vector>

using Number = unsigned long long;
using Words = std::vector<std::string>;

struct Refused {
    int refusal;
    Number about = 0;
};

[[noreturn]] void give_up(const std::string& what) {
    std::cerr << "counting: " << what << "\n";
    std::exit(1);
}

Number to_number(const std::string& word) {
    if (word.empty() || word.find_first_not_of("0123456789") != std::string::npos) give_up("no number: " + word);
    return std::stoull(word);
}

// ---- The book ------------------------------------------------------------------------------------------------

struct Record {
    Number number;
    char kind;  // 'I' an item, 'S' a series block, 'P' a parallel block
    int type;
    Number a, b;
};

struct Book {
    std::vector<Record> standing;  // in rising number
    Number last = 0;

    const Record* find(Number number) const {
        for (const Record& record : standing)
            if (record.number == number) return &record;
        return nullptr;
    }

    bool built_in(Number number) const {
        for (const Record& record : standing)
            if (record.kind != 'I' && (record.a == number || record.b == number)) return true;
        return false;
    }

    const Record& named(Number number) const {
        if (number == 0 || number > last) throw Refused{15, number};
        const Record* record = find(number);
        if (!record) throw Refused{16, number};
        return *record;
    }

    void must_be_free(Number number) const {
        named(number);
        if (built_in(number)) throw Refused{17, number};
    }

    Number give(Record record) {
        if (last == 9999) throw Refused{14};
        record.number = ++last;
        standing.push_back(record);
        return last;
    }

    Number issue(Number type) {
        if (type < 1 || type > 3) throw Refused{11};
        int items = 0, of_type = 0;
        for (const Record& record : standing) {
            items += record.kind == 'I';
            of_type += record.kind == 'I' && record.type == int(type);
        }
        if (items == 16) throw Refused{12};
        if (of_type == 7) throw Refused{13};
        return give({0, 'I', int(type), 0, 0});
    }

    Number join(char kind, Number a, Number b) {
        must_be_free(a);
        must_be_free(b);
        if (a == b) throw Refused{18, a};
        return give({0, kind, 0, a, b});
    }

    Number withdraw(Number number) {
        must_be_free(number);
        standing.erase(std::find_if(standing.begin(), standing.end(),
                                    [=](const Record& record) { return record.number == number; }));
        return number;
    }
};

// ---- Systems and their states --------------------------------------------------------------------------------

// Components, each of a type, and for each state of them, one bit to a component, whether the system works.
struct System {
    std::vector<int> types;
    std::vector<char> works;     // by state
    size_t of_type[4] = {};      // the components of each type, as a state in which they work

    void add(int type) {
        of_type[type] |= size_t(1) << types.size();
        types.push_back(type);
        works.resize(size_t(1) << types.size());
    }

    size_t states() const { return works.size(); }

    int total(int type) const { return __builtin_popcountll(of_type[type]); }

    int working(size_t state, int type) const { return __builtin_popcountll(state & of_type[type]); }
};

// The items beneath a line.
void gather_items(const Book& book, Number number, std::vector<Record>& items) {
    const Record& record = *book.find(number);
    if (record.kind == 'I') {
        items.push_back(record);
    } else {
        gather_items(book, record.a, items);
        gather_items(book, record.b, items);
    }
}

// A line as a test of states.
struct Node {
    char kind;
    int bit;
    int a, b;
};

int add_nodes(const Book& book, Number number, const std::vector<Record>& items, std::vector<Node>& nodes) {
    const Record& record = *book.find(number);
    Node node{record.kind, 0, 0, 0};
    if (record.kind == 'I') {
        while (items[node.bit].number != number) node.bit++;
    } else {
        node.a = add_nodes(book, record.a, items, nodes);
        node.b = add_nodes(book, record.b, items, nodes);
    }
    nodes.push_back(node);
    return int(nodes.size()) - 1;
}

bool node_works(const std::vector<Node>& nodes, int at, size_t state) {
    const Node& node = nodes[at];
    if (node.kind == 'I') return state >> node.bit & 1;
    if (node.kind == 'S') return node_works(nodes, node.a, state) && node_works(nodes, node.b, state);
    return node_works(nodes, node.a, state) || node_works(nodes, node.b, state);
}

// The system of a line: the items beneath it in rising number, and each of their states tried.
System line_system(const Book& book, Number number) {
    std::vector<Record> items;
    gather_items(book, number, items);
    std::sort(items.begin(), items.end(), [](const Record& x, const Record& y) { return x.number < y.number; });
    std::vector<Node> nodes;
    int top = add_nodes(book, number, items, nodes);
    System system;
    for (const Record& item : items) system.add(item.type);
    for (size_t state = 0; state < system.states(); state++) system.works[state] = node_works(nodes, top, state);
    return system;
}

struct Layer {
    bool mirror;
    int place;
};

// Places, each with a type or 0, and paths, with layers over them, the lowest first.
struct Pile {
    std::vector<int> types;
    std::vector<char> line;         // of a line's plan: whether it works, by state of its first places
    std::vector<unsigned> paths;    // of a path list
    std::vector<Layer> layers;

    bool plan_works(unsigned state) const {
        if (!line.empty()) return line[state & (line.size() - 1)];
        for (unsigned path : paths)
            if ((path & ~state) == 0) return true;
        return false;
    }

    // Whether the plan works with the lowest so many layers over it.
    bool works(size_t height, unsigned state) const {
        if (height == 0) return plan_works(state);
        const Layer& layer = layers[height - 1];
        if (layer.mirror) return !works(height - 1, ~state & 0xffff);
        return works(height - 1, state & ~(1u << layer.place));
    }
};

// The system of the places that are not empty; in each state of these, the empty ones have failed.
System pile_system(const Pile& pile) {
    std::vector<unsigned> places;
    System system;
    system.works.resize(1);
    for (unsigned place = 0; place < pile.types.size(); place++)
        if (pile.types[place]) {
            places.push_back(place);
            system.add(pile.types[place]);
        }
    for (int type = 1; type <= 3; type++)
        if (system.total(type) > 7) throw Refused{34};
    for (size_t state = 0; state < system.states(); state++) {
        unsigned spread = 0;
        for (size_t i = 0; i < places.size(); i++) spread |= unsigned(state >> i & 1) << places[i];
        system.works[state] = pile.works(pile.layers.size(), spread);
    }
    return system;
}

// ---- Figures of a system -------------------------------------------------------------------------------------

using Cells = std::array<unsigned, 512>;

// How many states have so many components of each type working, and work or fail as asked; all states if not.
Cells count_cells(const System& system, std::optional<bool> works) {
    Cells cells{};
    for (size_t state = 0; state < system.states(); state++)
        if (!works || bool(system.works[state]) == *works)
            cells[system.working(state, 1) + 8 * system.working(state, 2) + 64 * system.working(state, 3)]++;
    return cells;
}

std::string show_cells(const Cells& cells) {
    std::string text;
    for (int k = 0; k < 512; k++)
        if (cells[k] % 65536)
            text += (text.empty() ? "" : ",") + std::to_string(k % 8) + std::to_string(k / 8 % 8) +
                    std::to_string(k / 64) + ":" + std::to_string(cells[k] % 65536);
    return text.empty() ? "0" : text;
}

std::string count_figure(const System& system, bool works) {
    Number count = std::count(system.works.begin(), system.works.end(), char(works));
    return std::to_string(count % 4294967296);
}

std::string price_figure(const System& system, bool works, const std::array<Number, 3>& prices) {
    Number best = 4294967295;
    for (size_t state = 0; state < system.states(); state++) {
        if (bool(system.works[state]) != works) continue;
        Number loss = 0;
        for (int type = 1; type <= 3; type++)
            loss += prices[type - 1] * (system.total(type) - system.working(state, type));
        best = std::min(best, loss);
    }
    return std::to_string(best);
}

// ---- Survival ------------------------------------------------------------------------------------------------

using Wide = unsigned __int128;
const Wide S = Wide(1) << 30;

struct Bounds {
    Wide low, high;
};

Bounds bounds_of(const Book& book, Number number, const std::array<Number, 3>& shares) {
    const Record& record = *book.find(number);
    if (record.kind == 'I') return {shares[record.type - 1], shares[record.type - 1]};
    Bounds a = bounds_of(book, record.a, shares), b = bounds_of(book, record.b, shares);
    auto floor = [](Wide x) { return x / S; };
    auto ceil = [](Wide x) { return (x + S - 1) / S; };
    if (record.kind == 'S') return {floor(a.low * b.low), ceil(a.high * b.high)};
    return {S - ceil((S - a.low) * (S - b.low)), S - floor((S - a.high) * (S - b.high))};
}

// A whole number of any length, least digit first.
struct Big {
    std::vector<uint32_t> digits;

    explicit Big(uint32_t value) : digits{value} {}

    Big& times(uint32_t factor, int power) {
        while (power-- > 0) {
            uint64_t carry = 0;
            for (uint32_t& digit : digits) {
                carry += uint64_t(digit) * factor;
                digit = uint32_t(carry);
                carry >>= 32;
            }
            digits.push_back(uint32_t(carry));
        }
        return *this;
    }

    void add(const Big& other) {
        digits.resize(std::max(digits.size(), other.digits.size()) + 1);
        uint64_t carry = 0;
        for (size_t i = 0; i < digits.size(); i++) {
            carry += uint64_t(digits[i]) + (i < other.digits.size() ? other.digits[i] : 0);
            digits[i] = uint32_t(carry);
            carry >>= 32;
        }
    }

    bool at_most(const Big& other) const {
        for (size_t i = std::max(digits.size(), other.digits.size()); i-- > 0;) {
            uint32_t x = i < digits.size() ? digits[i] : 0, y = i < other.digits.size() ? other.digits[i] : 0;
            if (x != y) return x < y;
        }
        return true;
    }
};

// The exact sum: states with equal numbers of working items of each type have equal products.
Big exact_sum(const System& system, const std::array<Number, 3>& shares) {
    Cells cells = count_cells(system, true);
    Big sum(0);
    for (int k = 0; k < 512; k++) {
        if (!cells[k]) continue;
        Big product(cells[k]);
        int working[3] = {k % 8, k / 8 % 8, k / 64};
        for (int i = 0; i < 3; i++)
            product.times(uint32_t(shares[i]), working[i])
                .times(uint32_t(S - shares[i]), system.total(i + 1) - working[i]);
        sum.add(product);
    }
    return sum;
}

bool encloses(const Bounds& bounds, const System& system, const std::array<Number, 3>& shares) {
    int m = int(system.types.size());
    Big exact = exact_sum(system, shares);
    Big low = Big(uint32_t(bounds.low)).times(uint32_t(S), m - 1);
    Big high = Big(uint32_t(bounds.high)).times(uint32_t(S), m - 1);
    return low.at_most(exact) && exact.at_most(high) && bounds.high - bounds.low <= Wide(m - 1);
}

// ---- Failure row ---------------------------------------------------------------------------------------------

// Entry j: in how many orders of failing the system stops at the j-th failure.
std::array<Number, 7> failure_row(const System& system) {
    std::array<Number, 7> row{};
    std::vector<int> order(system.types.size());
    for (size_t i = 0; i < order.size(); i++) order[i] = int(i);
    do {
        size_t state = system.states() - 1, failures = 0;
        while (system.works[state]) state &= ~(size_t(1) << order[failures++]);
        row[failures - 1]++;
    } while (std::next_permutation(order.begin(), order.end()));
    return row;
}

// The same by the formula.
bool row_fits(const std::array<Number, 7>& row, const System& system) {
    long long m = system.types.size(), factorial[8] = {1}, working[8] = {};
    for (int i = 1; i < 8; i++) factorial[i] = i * factorial[i - 1];
    for (size_t state = 0; state < system.states(); state++)
        if (system.works[state]) working[__builtin_popcountll(state)]++;
    for (int j = 1; j <= m; j++) {
        long long l = m - j + 1;
        if ((long long)row[j - 1] != working[l] * factorial[l] * factorial[m - l] -
                                         working[l - 1] * factorial[l - 1] * factorial[m - l + 1])
            return false;
    }
    return true;
}

// ---- Sheets --------------------------------------------------------------------------------------------------

struct Fault {
    int refusal;
    size_t line, place;
    Number number;
};

// The words of a sheet line, if it has the form `LETTER NUMBER` or `LETTER NUMBER NUMBER`.
struct SheetLine {
    char letter;
    std::vector<Number> numbers;
};

std::optional<SheetLine> read_sheet_line(const std::string& text) {
    if (text.empty() || std::string("ISPWE").find(text[0]) == std::string::npos) return {};
    SheetLine line{text[0], {}};
    size_t at = 1;
    while (at < text.size()) {
        if (text[at++] != ' ') return {};
        size_t from = at;
        while (at < text.size() && text[at] >= '0' && text[at] <= '9') at++;
        size_t length = at - from;
        if (length < 1 || length > 5 || (length > 1 && text[from] == '0')) return {};
        line.numbers.push_back(to_number(text.substr(from, length)));
    }
    bool two = line.letter == 'S' || line.letter == 'P' || line.letter == 'E';
    if (line.numbers.size() != (two ? 2u : 1u)) return {};
    return line;
}

void take_sheet_line(Book& book, const std::string& text) {
    std::optional<SheetLine> line = read_sheet_line(text);
    if (!line || line->letter == 'E') throw Refused{45};
    if (line->letter == 'I') book.issue(line->numbers[0]);
    else if (line->letter == 'W') book.withdraw(line->numbers[0]);
    else book.join(line->letter, line->numbers[0], line->numbers[1]);
}

// Enters a sheet and answers its count.
size_t enter_sheet(Book& book, const std::string& text) {
    if (text.size() > 1024) throw Fault{41, 0, 0, 0};
    std::vector<std::string> lines;
    std::vector<size_t> places;
    for (size_t from = 0, to; (to = text.find('\n', from)) != std::string::npos; from = to + 1) {
        lines.push_back(text.substr(from, to - from));
        places.push_back(from);
    }
    std::optional<SheetLine> closing;
    if (!text.empty() && text.back() == '\n') closing = read_sheet_line(lines.back());
    if (!closing || closing->letter != 'E') throw Fault{42, 0, text.size(), 0};
    size_t count = lines.size() - 1;
    if (closing->numbers[0] != count) throw Fault{43, lines.size(), places[count], 0};
    if (closing->numbers[1] != book.last + 1)
        throw Fault{44, lines.size(), places[count], closing->numbers[1]};
    Book changed = book;
    for (size_t i = 0; i < count; i++) {
        try {
            take_sheet_line(changed, lines[i]);
        } catch (const Refused& refused) {
            bool about = refused.refusal >= 15 && refused.refusal <= 18;
            throw Fault{refused.refusal, i + 1, places[i], about ? refused.about : 0};
        }
    }
    book = changed;
    return count;
}

// ---- Commands ------------------------------------------------------------------------------------------------

std::string read_hex(const std::string& digits) {
    if (digits.size() % 2) give_up("odd hexadecimal");
    std::string bytes;
    for (size_t i = 0; i < digits.size(); i += 2) bytes += char(std::stoi(digits.substr(i, 2), nullptr, 16));
    return bytes;
}

std::array<Number, 3> three(const Words& words, size_t from) {
    return {to_number(words[from]), to_number(words[from + 1]), to_number(words[from + 2])};
}

class Trial {
public:
    std::string out;

    void run(const Words& words) {
        try {
            answer(words);
        } catch (const Refused& refused) {
            say("refused " + std::to_string(refused.refusal));
        } catch (const Fault& fault) {
            say("refused " + std::to_string(fault.refusal) + " layer " + (fault.refusal > 40 ? "sheet" : "book") +
                " line " + std::to_string(fault.line) + " place " + std::to_string(fault.place) + " number " +
                std::to_string(fault.number));
        }
    }

private:
    Book book;
    std::map<Number, System> systems;  // of the lines of the book; a line stays as it is while it stands

    void say(const std::string& text) { out += text + "\n"; }

    void say_number(Number number) { say("number " + std::to_string(number)); }

    const System& system(Number number) {
        auto found = systems.find(number);
        if (found == systems.end()) found = systems.emplace(number, line_system(book, number)).first;
        return found->second;
    }

    void answer(const Words& words) {
        const std::string& name = words[0];
        auto takes = [&](const char* wanted, size_t arguments) {
            return name == wanted && words.size() == arguments + 1;
        };
        auto number = [&](size_t at) { return to_number(words[at]); };
        if (takes("new", 0)) {
            book = Book();
            systems.clear();
            say("new");
        } else if (takes("issue", 1)) say_number(book.issue(number(1)));
        else if (takes("join", 3)) say_number(book.join(words[1].at(0), number(2), number(3)));
        else if (takes("withdraw", 1)) say_number(book.withdraw(number(1)));
        else if (takes("churn", 2)) churn(number(1), number(2));
        else if (takes("question", 1)) question(number(1));
        else if (takes("sheet", 0)) say("accepted " + std::to_string(enter_sheet(book, "")));
        else if (takes("sheet", 1)) say("accepted " + std::to_string(enter_sheet(book, read_hex(words[1]))));
        else if (takes("count", 2)) survey(number(1), number(2), count_figure);
        else if (takes("signature", 2)) survey(number(1), number(2), signature_figure);
        else if (takes("prices", 5)) prices(three(words, 1), number(4), number(5));
        else if (takes("survival", 4)) survival(number(1), three(words, 2));
        else if (takes("row", 2)) row(number(1), number(2));
        else if (takes("account", 0)) account();
        else if (name == "plan" && words.size() >= 2) plan(words);
        else if (name == "paths" && words.size() >= 18) paths(words);
        else give_up("no such command: " + name);
    }

    void churn(Number type, Number times) {
        Number last = 0;
        while (times-- > 0) last = book.withdraw(book.issue(type));
        say_number(last);
    }

    void question(Number number) {
        const Record& record = book.named(number);
        std::string kind = record.kind == 'I' ? "item " + std::to_string(record.type)
                           : (record.kind == 'S' ? "series " : "parallel ") + std::to_string(record.a) + " " +
                                 std::to_string(record.b);
        say(kind + (book.built_in(number) ? " built-in" : " free"));
    }

    static std::string signature_figure(const System& system, bool works) {
        return show_cells(count_cells(system, works));
    }

    // The bench after a survey or a failure row, which answered if it was not refused.
    template <class Figure>
    void show_bench(bool answered, Number places, Figure figure) {
        std::string text = "bench";
        for (Number place = 0; place < places; place++) {
            if (answered && place < book.standing.size()) {
                const System& line = system(book.standing[place].number);
                text += " " + figure(line, true) + "/" + figure(line, false);
            } else {
                text += " junk/junk";
            }
        }
        say(text);
    }

    template <class Figure>
    void survey(Number number, Number places, Figure figure) {
        bool answered = false;
        try {
            const Record& named = book.named(number);
            if (places < book.standing.size()) throw Refused{21};
            say("place " + std::to_string(&named - book.standing.data()));
            answered = true;
        } catch (const Refused& refused) {
            say("refused " + std::to_string(refused.refusal));
        }
        show_bench(answered, places, figure);
    }

    void prices(const std::array<Number, 3>& prices, Number number, Number places) {
        for (Number price : prices)
            if (price > 1000000) throw Refused{24};
        survey(number, places,
               [&](const System& system, bool works) { return price_figure(system, works, prices); });
    }

    void survival(Number number, const std::array<Number, 3>& shares) {
        book.named(number);
        for (Number share : shares)
            if (share > S) throw Refused{22};
        Bounds bounds = bounds_of(book, number, shares);
        say("low " + std::to_string(Number(bounds.low)) + " high " + std::to_string(Number(bounds.high)));
        if (!encloses(bounds, system(number), shares)) say("check failed: survival");
    }

    void row(Number number, Number places) {
        bool answered = false;
        try {
            book.named(number);
            const System& line = system(number);
            for (int type : line.types)
                if (type != line.types[0]) throw Refused{23};
            if (places < book.standing.size()) throw Refused{21};
            std::array<Number, 7> row = failure_row(line);
            std::string text = "row";
            for (Number entry : row) text += " " + std::to_string(entry);
            say(text);
            if (!row_fits(row, line)) say("check failed: row");
            answered = true;
        } catch (const Refused& refused) {
            say("refused " + std::to_string(refused.refusal) + " row junk junk junk junk junk junk junk");
        }
        show_bench(answered, places, signature_figure);
    }

    void account() {
        Number stands = 0, withdrawn = 0;
        for (Number number = 1; number <= book.last; number++) book.find(number) ? stands++ : withdrawn++;
        say("given " + std::to_string(book.last) + " standing " + std::to_string(stands) + " withdrawn " +
            std::to_string(withdrawn));
    }

    void add_layers(Pile& pile, const Words& words, size_t from) {
        for (size_t i = from; i < words.size(); i++) {
            if (words[i] == "M") {
                pile.layers.push_back({true, 0});
            } else {
                Number place = to_number(words[i].substr(1));
                if (place > 15) say("refused 51");
                else pile.layers.push_back({false, int(place)});
            }
        }
    }

    void show_counts(const Pile& pile) {
        try {
            System counted = pile_system(pile);
            say("long counted " + show_cells(count_cells(counted, true)));
            say("totals counted " + show_cells(count_cells(counted, {})));
        } catch (const Refused& refused) {
            say("long refused " + std::to_string(refused.refusal) + " junk");
            say("totals refused " + std::to_string(refused.refusal) + " junk");
        }
    }

    void plan(const Words& words) {
        Number number = to_number(words[1]);
        book.named(number);
        const System& line = system(number);
        Pile pile;
        pile.types = line.types;
        pile.line = line.works;
        add_layers(pile, words, 2);
        show_counts(pile);
    }

    void paths(const Words& words) {
        Pile pile;
        for (size_t place = 0; place < 16; place++) {
            Number type = to_number(words[1 + place]);
            if (type > 3) throw Refused{11};
            pile.types.push_back(int(type));
        }
        Number count = to_number(words[17]);
        if (count == 0) throw Refused{31};
        if (count > 64) throw Refused{35};
        for (Number i = 0; i < count; i++) {
            unsigned path = unsigned(to_number(words.at(18 + i)));
            if (path == 0) throw Refused{32};
            for (unsigned place = 0; place < 16; place++)
                if ((path >> place & 1) && pile.types[place] == 0) throw Refused{33};
            pile.paths.push_back(path);
        }
        add_layers(pile, words, 18 + count);
        show_counts(pile);
    }
};

int main() {
    std::ios::sync_with_stdio(false);
    Trial trial;
    std::string line;
    while (std::getline(std::cin, line)) {
        std::istringstream text(line);
        Words words;
        for (std::string word; text >> word;) words.push_back(word);
        if (words.empty()) give_up("an empty line");
        trial.run(words);
        if (trial.out.size() > 1 << 16) {
            std::cout << trial.out;
            trial.out.clear();
        }
    }
    std::cout << trial.out;
}
