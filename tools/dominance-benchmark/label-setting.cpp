// Label setting with dominance: for each nurse of a bundle the least penalty over the rows that keep the hard rules with the others
// fixed, by Boost's r_c_shortest_paths and by a loop of its own over the same labels, each with several tests of dominance.
//
//     label-setting BUNDLE TIMES
//
// A line for each nurse: name, least penalty, and for each way (in the order of `ways`) the least nanoseconds of TIMES searches and
// the labels that one search makes. Only the search is timed: graph, prices and what dominance looks up are made before.
#define BOOST_SP_DISABLE_THREADS
#include <boost/graph/compressed_sparse_row_graph.hpp>
#include <boost/graph/r_c_shortest_paths.hpp>
#include <chrono>
#include <cstdint>
#include <cstdlib>
#include <iostream>

#include "rules.hpp"

// ---- memory: freed pieces are kept by size, so that a label costs no call of the system's allocator

namespace {
struct Piece {
    Piece* next;
};
constexpr std::size_t most_kept = 512;
Piece* kept[most_kept / 16 + 1];
char *free_bytes = nullptr, *block_end = nullptr;
}  // namespace

void* operator new(std::size_t size) {
    std::size_t rounded = (size + 15) / 16 * 16;
    if (rounded > most_kept) return std::malloc(size);
    Piece*& first = kept[rounded / 16];
    if (first != nullptr) {
        void* piece = first;
        first = first->next;
        return piece;
    }
    if (static_cast<std::size_t>(block_end - free_bytes) < rounded) {
        constexpr std::size_t block = 1 << 20;
        free_bytes = static_cast<char*>(std::malloc(block));
        block_end = free_bytes + block;
    }
    char* piece = free_bytes;
    free_bytes += rounded;
    return piece;
}
void operator delete(void* piece, std::size_t size) noexcept {
    std::size_t rounded = (size + 15) / 16 * 16;
    if (rounded > most_kept) return std::free(piece);
    auto* freed = static_cast<Piece*>(piece);
    freed->next = kept[rounded / 16];
    kept[rounded / 16] = freed;
}
// (without a size: nothing that the search makes)
void operator delete(void*) noexcept {}

namespace {

// ---- labels and their dominance

// Counts, and what they can still cost: the run, the shift's run, the assignments and the weekends, each at two ends: if the run goes
// on for as few days as it can, or as few days or weekends are worked as can be; and if it is as many. For two labels of a vertex the
// difference of such a cost is greatest at one of these two ends. So one label costs later at most the sum of the greater differences
// more than another.
struct Label {
    std::uint32_t vertex;
    std::int32_t cost;
    std::int16_t run, shift_run, assignments, weekends;
    std::int32_t fewest[4], most[4];
    bool operator<(const Label& other) const {
        return vertex != other.vertex ? vertex < other.vertex : cost < other.cost;
    }
    bool operator==(const Label& other) const { return vertex == other.vertex && cost == other.cost; }
};

// What each count can still cost for each number of days or weekends to come. It depends only on the contract and the shifts.
using Table = std::vector<std::vector<std::int32_t>>;

struct Later {
    // of runs that end, and of those that are open at the end; by choice, that of days off at 0, and that of work by itself
    std::vector<Table> ended, open;
    Table working_ended, working_open, assignments, weekends;

    Later(const Case& instance, const Contract& rules) {
        for (int choice = 0; choice <= instance.shifts; choice++) {
            const Pair& limits = choice == 0 ? rules.free : instance.runs[choice];
            int points = choice == 0 ? free_points : shift_points;
            ended.push_back(of_runs(instance, limits, points, true)), open.push_back(of_runs(instance, limits, points, false));
        }
        working_ended = of_runs(instance, rules.working, working_points, true);
        working_open = of_runs(instance, rules.working, working_points, false);
        const Pair& total = rules.total;
        for (int more = 0; more <= instance.days(); more++) {
            assignments.emplace_back();
            for (int count = 0; count <= total.cap(); count++)
                assignments.back().push_back(assignment_points * (over(total, count, more) + std::max(0, total.least - count - more)));
        }
        for (int more = 0; more <= instance.weeks; more++) {
            weekends.emplace_back();
            for (int count = 0; count <= rules.weekends; count++)
                weekends.back().push_back(weekend_points * over({0, rules.weekends}, count, more));
        }
    }

    static int over(const Pair& limits, int count, int more) {
        return std::max(0, count + more - limits.greatest) - std::max(0, count - limits.greatest);
    }

    static Table of_runs(const Case& instance, const Pair& limits, int points, bool ends) {
        Table table;
        for (int more = 0; more <= instance.days(); more++) {
            table.emplace_back();
            for (int run = 0; run <= limits.cap(); run++)
                table.back().push_back(points * (over(limits, run, more) + (ends ? missing(limits, run + more) : 0)));
        }
        return table;
    }

    // Of the run of days off, or of work if a shift was last; and of the shift's.
    const std::int32_t* of_run(int last, int more, int days_left) const {
        if (last == 0) return (more < days_left ? ended : open)[0][more].data();
        return (more < days_left ? working_ended : working_open)[more].data();
    }
    const std::int32_t* of_shift_run(int last, int more, int days_left) const {
        static const std::int32_t none[1] = {0};
        return last == 0 ? none : (more < days_left ? ended : open)[last][more].data();
    }
};

// How many days more a run goes on, how many days and weekends are worked yet: the fewest and the most.
struct Span {
    int fewest = 0, most = 0;
};

struct Vertex {
    bool is_alive = false;
    int last = 0, days_left = 0;
    Span run, shift_run, work, weekends;
    // of each count, at the fewest and at the most
    const std::int32_t *fewest[4], *most[4];
};

struct Arc {
    int to, choice, last, fixed;
    bool weekend, is_end;
};

struct Search {
    const Case& instance;
    const Nurse& nurse;
    const Contract& rules;
    const Later& later;
    std::vector<Vertex> vertices;
    std::vector<std::vector<Arc>> arcs;
    int start = 0, target = 0;

    Search(const Case& instance, int n, const Later& later, bool by_offers)
        : instance(instance), nurse(instance.nurses[n]), rules(instance.contracts[nurse.contract]), later(later) {
        int width = instance.shifts + 1, days = instance.days();
        target = (days + 1) * width, start = nurse.last;
        vertices.resize(target + 1), arcs.resize(target + 1);
        vertices[target].is_alive = true;
        for (int last = 0; last < width; last++) arcs[days * width + last].push_back({target, 0, last, 0, false, true});
        for (int day = 0; day < days; day++) {
            std::vector<int> prices = prices_of(instance, n, day);
            for (int last = 0; last < width; last++)
                for (int choice = 0; choice < width; choice++)
                    if (prices[choice] >= 0 && !instance.forbidden[last][choice])
                        arcs[day * width + last].push_back({(day + 1) * width + choice, choice, last,
                                                            prices[choice] + split_cost(rules, day, last, choice),
                                                            is_weekend_more(day, last, choice), false});
        }
        for (int v = target; v >= 0; v--) {
            vertices[v].last = v == target ? 0 : v % width, vertices[v].days_left = v == target ? 0 : days - v / width;
            if (v < target) look_ahead(v);
            if (!by_offers && v < target) {
                // (whatever is offered)
                Vertex& here = vertices[v];
                here.run = here.shift_run = here.work = {0, here.days_left};
                here.weekends = {0, std::min(instance.weeks, here.days_left / 7 + 1)};
            }
            find_later(vertices[v]);
        }
    }

    // What the days from a vertex on may be, by the offers on them that lead to the end.
    void look_ahead(int v) {
        auto& out = arcs[v];
        out.erase(std::remove_if(out.begin(), out.end(), [&](const Arc& arc) { return !vertices[arc.to].is_alive; }), out.end());
        Vertex& here = vertices[v];
        here.is_alive = !out.empty();
        bool is_first = true;
        for (const Arc& arc : out) {
            const Vertex& to = vertices[arc.to];
            auto join = [&](Span& span, const Span& more) {
                span.fewest = is_first ? more.fewest : std::min(span.fewest, more.fewest);
                span.most = is_first ? more.most : std::max(span.most, more.most);
            };
            auto add = [](const Span& span, int more) { return Span{span.fewest + more, span.most + more}; };
            bool runs_on = !arc.is_end && (here.last != 0) == (arc.choice != 0);
            join(here.run, runs_on ? add(to.run, 1) : Span{});
            join(here.shift_run, runs_on && here.last == arc.choice ? add(to.shift_run, 1) : Span{});
            join(here.work, add(to.work, arc.choice != 0));
            join(here.weekends, add(to.weekends, arc.weekend));
            is_first = false;
        }
    }

    void find_later(Vertex& here) const {
        for (int end = 0; end < 2; end++) {
            auto of = [&](const Span& span) { return end == 0 ? span.fewest : span.most; };
            const std::int32_t** costs = end == 0 ? here.fewest : here.most;
            costs[0] = later.of_run(here.last, of(here.run), here.days_left);
            costs[1] = later.of_shift_run(here.last, of(here.shift_run), here.days_left);
            costs[2] = later.assignments[of(here.work)].data();
            costs[3] = later.weekends[of(here.weekends)].data();
        }
    }

    void set_later(Label& label) const {
        const Vertex& here = vertices[label.vertex];
        const int counts[4] = {label.run, label.shift_run, label.assignments, label.weekends};
        for (int which = 0; which < 4; which++) {
            label.fewest[which] = here.fewest[which][counts[which]];
            label.most[which] = here.most[which][counts[which]];
        }
    }

    Label first() const {
        State state = start_of(instance, nurse);
        Label label{};
        label.vertex = start, label.cost = start_cost(instance, nurse);
        label.run = state.run, label.shift_run = state.shift_run;
        label.assignments = state.assignments, label.weekends = state.weekends;
        set_later(label);
        return label;
    }

    void extend(Label& label, const Arc& arc) const {
        label.vertex = arc.to;
        if (arc.is_end) {
            // (all labels of the end are alike but for their costs)
            label.cost += end_cost(rules, label.assignments);
            std::fill_n(label.fewest, 4, 0), std::fill_n(label.most, 4, 0);
            return;
        }
        State at{arc.last, label.run, label.shift_run, label.assignments, label.weekends};
        label.cost += arc.fixed + go_on(instance, rules, arc.last, arc.choice, arc.weekend, at);
        label.run = at.run, label.shift_run = at.shift_run, label.assignments = at.assignments, label.weekends = at.weekends;
        set_later(label);
    }
};

// Each count by itself.
inline bool dominates_apart(const Label& one, const Label& other) {
    std::int32_t worse = one.cost - other.cost;
    for (int which = 0; which < 4; which++)
        worse += std::max(one.fewest[which] - other.fewest[which], one.most[which] - other.most[which]);
    return worse <= 0;
}

// The two runs together: a shift's run goes on for no more days than that of work. If one label has worked fewer days and more of this
// shift, the first counts most if work ends soon, and the second if the shift goes on for long.
inline bool dominates_joined(const Search& search, const Label& one, const Label& other) {
    std::int32_t rest = one.cost - other.cost, ends[4];
    for (int which = 0; which < 4; which++)
        ends[which] = std::max(one.fewest[which] - other.fewest[which], one.most[which] - other.most[which]);
    rest += ends[2] + ends[3];
    if (rest + ends[0] + ends[1] <= 0) return true;
    if (rest > 0 || one.run >= other.run || one.shift_run <= other.shift_run) return false;
    const Vertex& here = search.vertices[one.vertex];
    // (a run of more days than the greatest cap differs no more)
    int longest = std::min(here.shift_run.most, std::max(search.rules.working.cap(), search.instance.runs[here.last].cap()) + 1);
    for (int days = here.shift_run.fewest; days <= longest; days++) {
        const std::int32_t* run = search.later.of_run(here.last, std::max(days, here.run.fewest), here.days_left);
        const std::int32_t* shift_run = search.later.of_shift_run(here.last, days, here.days_left);
        if (rest + run[one.run] - run[other.run] + shift_run[one.shift_run] - shift_run[other.shift_run] > 0) return false;
    }
    return true;
}

// ---- searches

std::uint64_t made = 0;

using Graph = boost::compressed_sparse_row_graph<boost::directedS, boost::no_property, Arc>;

Graph graph_of(const Search& search) {
    std::vector<std::pair<int, int>> pairs;
    std::vector<Arc> arcs;
    for (std::size_t v = 0; v < search.arcs.size(); v++)
        for (const Arc& arc : search.arcs[v]) pairs.push_back({static_cast<int>(v), arc.to}), arcs.push_back(arc);
    return Graph(boost::edges_are_sorted, pairs.begin(), pairs.end(), arcs.begin(), search.arcs.size());
}

struct Extend {
    const Search& search;
    template <class Edge>
    bool operator()(const Graph& graph, Label& label, const Label& before, Edge edge) const {
        label = before;
        search.extend(label, graph[edge]);
        made++;
        return true;
    }
};

template <bool joined>
struct Dominate {
    const Search& search;
    bool operator()(const Label& one, const Label& other) const {
        return joined ? dominates_joined(search, one, other) : dominates_apart(one, other);
    }
};

template <bool joined>
int by_boost(const Search& search, const Graph& graph) {
    std::vector<boost::graph_traits<Graph>::edge_descriptor> row;
    Label best{};
    best.cost = -1;
    boost::r_c_shortest_paths(graph, boost::get(boost::vertex_index, graph), boost::get(boost::edge_index, graph), search.start,
                              search.target, row, best, search.first(), Extend{search}, Dominate<joined>{search},
                              boost::default_r_c_shortest_paths_allocator(), boost::default_r_c_shortest_paths_visitor());
    return best.cost;
}

// A list for each vertex, in the order of the days, of labels that no other of the list dominates, each with the one that it came from.
struct Listed {
    Label label;
    std::uint32_t vertex, index;
};
using Lists = std::vector<std::vector<Listed>>;

int by_lists(const Search& search, Lists& lists) {
    lists.resize(search.vertices.size());
    for (auto& list : lists) list.clear();
    lists[search.start].push_back({search.first(), 0, 0});
    for (std::uint32_t v = 0; v + 1 < lists.size(); v++) {
        for (const Arc& arc : search.arcs[v]) {
            auto& there = lists[arc.to];
            for (std::uint32_t from = 0; from < lists[v].size(); from++) {
                Listed more{lists[v][from].label, v, from};
                search.extend(more.label, arc);
                made++;
                bool is_dominated = false;
                for (std::size_t index = 0; index < there.size() && !is_dominated;) {
                    if (dominates_apart(there[index].label, more.label)) {
                        is_dominated = true;
                        // (one that dominates goes to the front, where the next is compared with it earlier)
                        std::swap(there[index], there[index / 2]);
                    } else if (dominates_apart(more.label, there[index].label)) {
                        there[index] = there.back();
                        there.pop_back();
                    } else {
                        index++;
                    }
                }
                if (!is_dominated) there.push_back(more);
            }
        }
    }
    return lists[search.target].front().label.cost;
}

// One list for each day, in the order of the rows that the labels begin, so that the first of the least rows is found: a later label
// prunes an earlier one only if every row from it on costs less. Labels are compared if their runs are equal, so that only
// assignments and weekends can cost more later. Those of equal runs are linked, the last one first.
struct Ordered {
    Label label;
    int next;
    bool is_left_out;
};

class OrderedLists {
    std::vector<Ordered> here, there;
    std::vector<std::vector<std::pair<int, int>>> before;  // by day and label: the label that it came from, and the choice
    std::vector<int> first;                                // by last shift and both runs
    std::vector<std::size_t> used;

    // By how much one label may cost more in the end than another, at most.
    static int most_above(const Label& one, const Label& other) {
        int above = one.cost - other.cost;
        for (int which = 2; which < 4; which++)
            above += std::max(one.fewest[which] - other.fewest[which], one.most[which] - other.most[which]);
        return above;
    }

    // Puts a label at the end of the list, if none of those that are linked costs at most as much.
    bool put(const Label& more, int& linked) {
        for (int index = linked, last = -1; index >= 0; index = there[index].next) {
            Ordered& other = there[index];
            if (most_above(other.label, more) <= 0) return false;
            if (most_above(more, other.label) < 0) {
                other.is_left_out = true;
                (last < 0 ? linked : there[last].next) = other.next;
            } else {
                last = index;
            }
        }
        there.push_back({more, linked, false});
        linked = static_cast<int>(there.size()) - 1;
        return true;
    }

  public:
    int search(const Search& search) {
        const int days = search.instance.days(), runs = std::max(search.rules.working.cap(), search.rules.free.cap()) + 1;
        int shift_runs = 1;
        for (const Pair& limits : search.instance.runs) shift_runs = std::max(shift_runs, limits.cap() + 1);
        first.assign(std::size_t(search.instance.shifts + 1) * runs * shift_runs, -1);
        before.resize(days);
        here.assign(1, {search.first(), -1, false});
        for (int day = 0; day < days; day++) {
            there.clear(), before[day].clear();
            for (std::size_t from = 0; from < here.size(); from++) {
                if (here[from].is_left_out) continue;
                for (const Arc& arc : search.arcs[here[from].label.vertex]) {
                    Label more = here[from].label;
                    search.extend(more, arc);
                    made++;
                    const std::size_t group = (std::size_t(arc.choice) * runs + more.run) * shift_runs + more.shift_run;
                    if (first[group] < 0) used.push_back(group);
                    if (put(more, first[group])) before[day].push_back({static_cast<int>(from), arc.choice});
                }
            }
            for (std::size_t group : used) first[group] = -1;
            used.clear();
            std::swap(here, there);
        }
        int least = INT32_MAX;
        for (const Ordered& ordered : here)
            if (!ordered.is_left_out) least = std::min(least, ordered.label.cost + end_cost(search.rules, ordered.label.assignments));
        return least;
    }
};

const char* const ways = "boost-apart boost-offers boost-joined lists-offers lists-alike";

template <class Way>
void measure(int times, int& cost, Way way) {
    std::uint64_t least = UINT64_MAX, labels = 0;
    for (int time = 0; time < times; time++) {
        made = 0;
        auto begin = std::chrono::steady_clock::now();
        int found = way();
        auto spent = std::chrono::steady_clock::now() - begin;
        least = std::min<std::uint64_t>(least, std::chrono::duration_cast<std::chrono::nanoseconds>(spent).count());
        labels = made;
        if (cost >= 0 && found != cost) throw std::runtime_error("two ways found different costs");
        cost = found;
    }
    std::cout << ' ' << least << ' ' << labels;
}

}  // namespace

int main(int count, char** words) {
    if (count != 3) {
        std::cerr << "label-setting BUNDLE TIMES: " << ways << '\n';
        return 2;
    }
    const Case instance = read_case(words[1]);
    const int times = std::stoi(words[2]);
    std::vector<int> costs;
    std::vector<Later> later;
    for (const Contract& rules : instance.contracts) later.emplace_back(instance, rules);
    long all = 0;
    for (std::size_t n = 0; n < instance.nurses.size(); n++) costs.push_back(row_cost(instance, n)), all += costs.back();
    Lists lists;
    OrderedLists ordered;
    for (std::size_t n = 0; n < instance.nurses.size(); n++) {
        const Later& costs_later = later[instance.nurses[n].contract];
        const Search apart(instance, n, costs_later, false), search(instance, n, costs_later, true);
        const Graph apart_graph = graph_of(apart), graph = graph_of(search);
        int cost = by_boost<true>(search, graph);
        std::cout << instance.nurses[n].name << ' ' << all - costs[n] + cost;
        measure(times, cost, [&] { return by_boost<false>(apart, apart_graph); });
        measure(times, cost, [&] { return by_boost<false>(search, graph); });
        measure(times, cost, [&] { return by_boost<true>(search, graph); });
        measure(times, cost, [&] { return by_lists(search, lists); });
        measure(times, cost, [&] { return ordered.search(search); });
        std::cout << std::endl;
    }
}
