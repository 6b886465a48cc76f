// The texts and the rules, as label-setting.cpp reads and counts them; written by hand, apart from the proved ones.
#pragma once
#include <algorithm>
#include <fstream>
#include <map>
#include <sstream>
#include <stdexcept>
#include <string>
#include <vector>

namespace {

constexpr int working_points = 30, free_points = 30, shift_points = 15, split_points = 30, assignment_points = 20,
              weekend_points = 30, lacking_points = 30, request_points = 10;

// ---- the texts

struct Pair {
    int least = 0, greatest = 0;
    int cap() const { return std::max(least, greatest); }
};

struct Contract {
    Pair total, working, free;
    int weekends = 0;
    bool is_whole = false;
};

// A choice is 0, to be off, or 1 + the number of a shift.
struct Nurse {
    std::string name;
    int contract = 0;
    std::vector<int> skills;
    int assignments = 0, weekends = 0, last = 0, shift_run = 0, working = 0, free = 0;
};

struct Cell {
    int choice = 0, skill = 0;
};

struct Case {
    int weeks = 0, skills = 0, shifts = 0;
    std::vector<Pair> runs;                     // by choice
    std::vector<std::vector<char>> forbidden;   // by choice before, choice
    std::vector<Contract> contracts;
    std::vector<Nurse> nurses;
    std::vector<std::vector<Pair>> needs;       // by day; by choice and skill
    std::vector<std::vector<std::vector<int>>> requests;  // by nurse, day, choice: the points for requests that it doesn't meet
    std::vector<std::vector<Cell>> rows;        // by nurse, day
    int days() const { return 7 * weeks; }
    int slot_of(int choice, int skill) const { return (choice - 1) * skills + skill; }
};

class Reader {
    std::vector<std::string> words;
    std::size_t at = 0;

  public:
    explicit Reader(const std::string& path) {
        std::ifstream file(path);
        if (!file) throw std::runtime_error("no file " + path);
        std::stringstream text;
        text << file.rdbuf();
        std::string all = text.str();
        for (char& c : all)
            if (c == '(' || c == ')' || c == ',' || c == '=') c = ' ';
        std::stringstream split(all);
        for (std::string word; split >> word;) words.push_back(word);
    }
    std::string word() { return words.at(at++); }
    const std::string& peek() const { return words.at(at); }
    int number() { return std::stoi(word()); }
    Pair pair() {
        int least = number();
        return {least, number()};
    }
    void expect(const std::string& wanted) {
        if (word() != wanted) throw std::runtime_error("expected " + wanted);
    }
};

using Names = std::map<std::string, int>;

int weekday(const std::string& word) {
    static const std::string starts[] = {"Mon", "Tue", "Wed", "Thu", "Fri", "Sat", "Sun"};
    for (int day = 0; day < 7; day++)
        if (word.compare(0, 3, starts[day]) == 0) return day;
    throw std::runtime_error("no day: " + word);
}

Case read_case(const std::string& path) {
    Reader text(path);
    Case instance;
    Names skills, shifts, contracts, nurses;
    text.expect("SCENARIO"), text.word();
    text.expect("WEEKS"), instance.weeks = text.number();
    text.expect("SKILLS"), instance.skills = text.number();
    for (int n = 0; n < instance.skills; n++) skills[text.word()] = n;
    text.expect("SHIFT_TYPES"), instance.shifts = text.number();
    instance.runs.resize(instance.shifts + 1);
    for (int n = 1; n <= instance.shifts; n++) shifts[text.word()] = n, instance.runs[n] = text.pair();
    instance.forbidden.assign(instance.shifts + 1, std::vector<char>(instance.shifts + 1, 0));
    text.expect("FORBIDDEN_SHIFT_TYPES_SUCCESSIONS");
    while (text.peek() != "CONTRACTS") {
        int before = shifts.at(text.word());
        for (int more = text.number(); more > 0; more--) instance.forbidden[before][shifts.at(text.word())] = 1;
    }
    text.expect("CONTRACTS"), instance.contracts.resize(text.number());
    for (std::size_t n = 0; n < instance.contracts.size(); n++) {
        contracts[text.word()] = n;
        Contract& rules = instance.contracts[n];
        rules.total = text.pair(), rules.working = text.pair(), rules.free = text.pair();
        rules.weekends = text.number(), rules.is_whole = text.number() == 1;
    }
    text.expect("NURSES"), instance.nurses.resize(text.number());
    for (std::size_t n = 0; n < instance.nurses.size(); n++) {
        Nurse& nurse = instance.nurses[n];
        nurse.name = text.word(), nurses[nurse.name] = n, nurse.contract = contracts.at(text.word());
        for (int more = text.number(); more > 0; more--) nurse.skills.push_back(skills.at(text.word()));
    }
    text.expect("HISTORY"), text.number(), text.word(), text.expect("NURSE_HISTORY");
    for (std::size_t n = 0; n < instance.nurses.size(); n++) {
        Nurse& nurse = instance.nurses[nurses.at(text.word())];
        nurse.assignments = text.number(), nurse.weekends = text.number();
        std::string last = text.word();
        int shift_run = text.number(), working = text.number(), free = text.number();
        if (last == "None")
            nurse.free = free;
        else
            nurse.last = shifts.at(last), nurse.shift_run = shift_run, nurse.working = working;
    }
    instance.needs.assign(instance.days(), std::vector<Pair>(instance.shifts * instance.skills));
    instance.requests.assign(instance.nurses.size(), std::vector<std::vector<int>>(instance.days(), std::vector<int>(instance.shifts + 1, 0)));
    for (int week = 0; week < instance.weeks; week++) {
        text.expect("WEEK_DATA"), text.word(), text.expect("REQUIREMENTS");
        while (text.peek() != "SHIFT_OFF_REQUESTS") {
            int shift = shifts.at(text.word()), skill = skills.at(text.word());
            for (int day = 0; day < 7; day++) instance.needs[7 * week + day][instance.slot_of(shift, skill)] = text.pair();
        }
        // Each section counts once for a nurse and day, however many of its lines are against a choice.
        auto read_requests = [&](auto is_against) {
            std::map<std::pair<int, int>, std::vector<char>> against;
            for (int more = text.number(); more > 0; more--) {
                int nurse = nurses.at(text.word());
                std::string shift = text.word();
                auto& found = against[{nurse, 7 * week + weekday(text.word())}];
                found.resize(instance.shifts + 1);
                for (int choice = 0; choice <= instance.shifts; choice++)
                    if (is_against(choice != 0 && (shift == "Any" || shifts.at(shift) == choice))) found[choice] = 1;
            }
            for (const auto& [at, found] : against)
                for (int choice = 0; choice <= instance.shifts; choice++) instance.requests[at.first][at.second][choice] += request_points * found[choice];
        };
        text.expect("SHIFT_OFF_REQUESTS"), read_requests([](bool is_named) { return is_named; });
        if (text.peek() == "SHIFT_ON_REQUESTS") text.word(), read_requests([](bool is_named) { return !is_named; });
    }
    instance.rows.assign(instance.nurses.size(), std::vector<Cell>(instance.days()));
    for (int week = 0; week < instance.weeks; week++) {
        text.expect("SOLUTION"), text.number(), text.word(), text.expect("ASSIGNMENTS");
        for (int more = text.number(); more > 0; more--) {
            int nurse = nurses.at(text.word()), day = 7 * week + weekday(text.word());
            int shift = shifts.at(text.word());
            instance.rows[nurse][day] = {shift, skills.at(text.word())};
        }
    }
    return instance;
}

// ---- the rules, from day to day

struct State {
    int last, run, shift_run, assignments, weekends;
};

State start_of(const Case& instance, const Nurse& nurse) {
    const Contract& rules = instance.contracts[nurse.contract];
    State state{nurse.last, 0, 0, 0, 0};
    state.run = nurse.last ? std::min(nurse.working, rules.working.cap()) : std::min(nurse.free, rules.free.cap());
    state.shift_run = nurse.last ? std::min(nurse.shift_run, instance.runs[nurse.last].cap()) : 0;
    state.assignments = std::min(nurse.assignments, rules.total.cap());
    state.weekends = std::min(nurse.weekends, rules.weekends);
    return state;
}

int start_cost(const Case& instance, const Nurse& nurse) {
    const Contract& rules = instance.contracts[nurse.contract];
    return assignment_points * std::max(0, nurse.assignments - rules.total.greatest) +
           weekend_points * std::max(0, nurse.weekends - rules.weekends);
}

bool is_weekend_more(int day, int last, int choice) {
    return choice != 0 && (day % 7 == 5 || (day % 7 == 6 && last == 0));
}

int split_cost(const Contract& rules, int day, int last, int choice) {
    return rules.is_whole && day % 7 == 6 && (last != 0) != (choice != 0) ? split_points : 0;
}

int missing(const Pair& limits, int run) { return run > 0 ? std::max(0, limits.least - run) : 0; }
int extra(const Pair& limits, int run) { return run >= limits.greatest ? 1 : 0; }

// What a day costs in runs, in assignments and in weekends above the greatest, without split weekends; the counts go on.
template <class Counts>
inline int go_on(const Case& instance, const Contract& rules, int last, int choice, bool weekend, Counts& at) {
    int cost = 0;
    if (choice != 0) {
        int run = last != 0 ? at.run : 0;
        if (last == 0) cost += free_points * missing(rules.free, at.run);
        cost += working_points * extra(rules.working, run);
        at.run = std::min(run + 1, rules.working.cap());
        int shift_run = last == choice ? at.shift_run : 0;
        if (last != 0 && last != choice) cost += shift_points * missing(instance.runs[last], at.shift_run);
        cost += shift_points * extra(instance.runs[choice], shift_run);
        at.shift_run = std::min(shift_run + 1, instance.runs[choice].cap());
        cost += assignment_points * extra(rules.total, at.assignments);
        at.assignments = std::min(at.assignments + 1, rules.total.cap());
        if (weekend) {
            cost += at.weekends >= rules.weekends ? weekend_points : 0;
            at.weekends = std::min(at.weekends + 1, rules.weekends);
        }
        return cost;
    }
    int run = last == 0 ? at.run : 0;
    if (last != 0) {
        cost += working_points * missing(rules.working, at.run);
        cost += shift_points * missing(instance.runs[last], at.shift_run);
    }
    cost += free_points * extra(rules.free, run);
    at.run = std::min(run + 1, rules.free.cap());
    at.shift_run = 0;
    return cost;
}

int end_cost(const Contract& rules, int assignments) {
    return assignment_points * std::max(0, rules.total.least - assignments);
}

// What a nurse's row costs, without staffing.
int row_cost(const Case& instance, int n) {
    const Nurse& nurse = instance.nurses[n];
    const Contract& rules = instance.contracts[nurse.contract];
    State state = start_of(instance, nurse);
    int cost = start_cost(instance, nurse), last = state.last;
    for (int day = 0; day < instance.days(); day++) {
        int choice = instance.rows[n][day].choice;
        cost += split_cost(rules, day, last, choice);
        cost += go_on(instance, rules, last, choice, is_weekend_more(day, last, choice), state);
        cost += instance.requests[n][day][choice];
        last = choice;
    }
    return cost + end_cost(rules, state.assignments);
}

// For each choice of a day what it costs at least, by the cheapest skill; -1 if it isn't offered.
std::vector<int> prices_of(const Case& instance, int n, int day) {
    std::vector<int> cover(instance.shifts * instance.skills, 0);
    for (std::size_t other = 0; other < instance.nurses.size(); other++) {
        const Cell& cell = instance.rows[other][day];
        if (static_cast<int>(other) != n && cell.choice != 0) cover[instance.slot_of(cell.choice, cell.skill)]++;
    }
    std::vector<int> prices(instance.shifts + 1, -1);
    auto offer = [&](int choice, int skill) {
        int slot = choice == 0 ? -1 : instance.slot_of(choice, skill), price = instance.requests[n][day][choice];
        for (int p = 0; p < instance.shifts * instance.skills; p++) {
            int have = cover[p] + (p == slot);
            if (have < instance.needs[day][p].least) return;
            price += lacking_points * std::max(0, instance.needs[day][p].greatest - have);
        }
        if (prices[choice] < 0 || price < prices[choice]) prices[choice] = price;
    };
    offer(0, 0);
    for (int choice = 1; choice <= instance.shifts; choice++)
        for (int skill : instance.nurses[n].skills) offer(choice, skill);
    return prices;
}

}  // namespace
