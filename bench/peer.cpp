// An unproved program beside `routes`, to measure with: it answers `ask A B`, `next` and `end` from the file map.img as `routes`
// does under metres, by the same method. Any other line is `refused 20`. Which of equally dear routes comes may differ.
//     g++ -O2 -std=c++17 -o peer peer.cpp
// Each next starts from the listed routes alone. An unlisted route goes on from the beginning that it has in common with listed
// routes by a link that none of them takes next, or stops there. So there is one search for each beginning of a listed route
// that no earlier listed route has, and the best route found so far is its bound. A search settles links, not nodes, from a
// binary heap.
#include <algorithm>
#include <cstdint>
#include <cstdio>
#include <cstring>
#include <functional>
#include <string>
#include <unordered_map>
#include <utility>
#include <vector>

using Cost = uint64_t;
using Route = std::vector<int>;
using Waiting = std::pair<Cost, int>;

static const Cost none = ~Cost(0);
static const int most_links = 1024, most_nodes = 512, most_routes = 16;

struct Link { int start, end; uint32_t length; };
struct Turn { char letter; uint32_t extra; };
struct Step { int link; uint32_t extra; };

// ---- the map; links count from 1
static std::vector<Link> links(1);
static std::unordered_map<uint32_t, Turn> turns;
static int first_link[most_nodes + 2];                 // the links out of node v are first_link[v] to first_link[v + 1] - 1

static bool read_image(const std::vector<unsigned char>& bytes) {
    auto number = [&](size_t at, int size) { uint32_t v = 0; while (size--) v = v << 8 | bytes[at++]; return v; };
    if (bytes.size() < 16) return false;
    uint32_t link_count = number(2, 2), turn_count = number(10, 2);
    if (link_count > most_links || bytes.size() != 16 + 9ull * (link_count + turn_count)) return false;
    size_t at = 16;
    for (; link_count--; at += 9) links.push_back({(int)number(at, 2), (int)number(at + 2, 2), number(at + 4, 4)});
    for (; turn_count--; at += 9) turns[number(at, 2) << 16 | number(at + 2, 2)] = {(char)bytes[at + 4], number(at + 5, 4)};
    for (int v = 0, l = 1; v <= most_nodes + 1; v++) {
        while (l < (int)links.size() && links[l].start < v) l++;
        first_link[v] = l;
    }
    return true;
}

static uint32_t extra_between(int into, int out) {
    auto it = turns.find((uint32_t)into << 16 | out);
    return it == turns.end() ? 0 : it->second.extra;
}

// ---- the question
static int from, to;
static bool is_open = false;
static std::vector<Route> listed;
static std::vector<int> first_step;                    // the steps from link l are first_step[l] to first_step[l + 1] - 1
static std::vector<Step> steps;

// Lists for each link the links that may come after it.
static void ask(int a, int b) {
    from = a; to = b; is_open = true; listed.clear();
    int count = (int)links.size() - 1;
    first_step.assign(count + 2, 0); steps.clear();
    for (int l = 1; l <= count; l++) {
        first_step[l] = (int)steps.size();
        for (int q = first_link[links[l].end]; q < first_link[links[l].end + 1]; q++) {
            auto it = turns.find((uint32_t)l << 16 | q);
            if (it == turns.end()) steps.push_back({q, 0});
            else if (it->second.letter != 'X') steps.push_back({q, it->second.extra});
        }
    }
    first_step[count + 1] = (int)steps.size();
}

// ---- one search; a mark counts where it has the number of the search
static std::vector<Cost> label(most_links + 2);
static std::vector<int> came_from(most_links + 2);
static std::vector<uint32_t> labelled(most_links + 2), used(most_links + 2), forbidden(most_links + 2);
static uint32_t search = 0;

// The cheapest route that begins with the first `size` links of `beginning`, which cost `spent`, and goes on by a link that is
// not forbidden, or stops there where it may. It costs less than the bound.
static bool complete(const Route& beginning, int size, Cost spent, bool may_stop, Cost bound, Cost& cost, Route& route) {
    if (may_stop && links[beginning[size - 1]].end == to) {
        if (spent >= bound) return false;
        cost = spent; route.assign(beginning.begin(), beginning.begin() + size);
        return true;
    }
    for (int j = 0; j < size; j++) used[beginning[j]] = search;
    static std::vector<Waiting> heap;
    heap.clear();
    auto reach = [&](int q, Cost c, int before) {
        if (c >= bound || (labelled[q] == search && c >= label[q])) return;
        labelled[q] = search; label[q] = c; came_from[q] = before;
        heap.push_back({c, q}); std::push_heap(heap.begin(), heap.end(), std::greater<Waiting>());
    };
    if (size) {
        int last = beginning[size - 1];
        for (int j = first_step[last]; j < first_step[last + 1]; j++) {
            int q = steps[j].link;
            if (used[q] != search && forbidden[q] != search) reach(q, spent + steps[j].extra + links[q].length, 0);
        }
    } else {
        for (int q = first_link[from]; q < first_link[from + 1]; q++) if (forbidden[q] != search) reach(q, links[q].length, 0);
    }
    while (!heap.empty()) {
        auto [c, l] = heap.front();
        std::pop_heap(heap.begin(), heap.end(), std::greater<Waiting>()); heap.pop_back();
        if (c != label[l]) continue;
        if (links[l].end == to) {
            cost = c; route.assign(beginning.begin(), beginning.begin() + size);
            for (int x = l; x; x = came_from[x]) route.push_back(x);
            std::reverse(route.begin() + size, route.end());
            return true;
        }
        for (int j = first_step[l]; j < first_step[l + 1]; j++) {
            int q = steps[j].link;
            if (used[q] != search) reach(q, c + steps[j].extra + links[q].length, l);
        }
    }
    return false;
}

// ---- the cheapest unlisted route
static int links_in_common(const Route& a, const Route& b) {
    int n = 0;
    while (n < (int)a.size() && n < (int)b.size() && a[n] == b[n]) n++;
    return n;
}

static bool cheapest_unlisted(Cost& best, Route& route) {
    best = none;
    if (listed.empty()) { search++; return complete({}, 0, 0, false, none, best, route); }
    Cost cost; Route found;
    for (size_t n = 0; n < listed.size(); n++) {
        const Route& p = listed[n];
        int fresh = 0;                                 // shorter beginnings were taken with an earlier route
        for (size_t m = 0; m < n; m++) fresh = std::max(fresh, links_in_common(p, listed[m]) + 1);
        Cost spent = 0;
        for (int k = 0; k <= (int)p.size(); k++) {
            if (k) spent += links[p[k - 1]].length + (k > 1 ? extra_between(p[k - 2], p[k - 1]) : 0);
            if (k < fresh) continue;
            if (spent >= best) break;
            search++;
            bool may_stop = k > 0;
            for (const Route& q : listed) {
                if ((int)q.size() < k || !std::equal(p.begin(), p.begin() + k, q.begin())) continue;
                if ((int)q.size() > k) forbidden[q[k]] = search; else may_stop = false;
            }
            if (complete(p, k, spent, may_stop, best, cost, found)) { best = cost; route = found; }
        }
    }
    return best != none;
}

// ---- lines and replies
static std::string next() {
    Cost cost; Route route;
    if (!is_open) return "refused 12";
    if (listed.size() == most_routes) return "refused 14";
    if (!cheapest_unlisted(cost, route)) return "refused 16";
    listed.push_back(route);
    static std::vector<char> in_first;
    if (listed.size() == 1) { in_first.assign(most_links + 1, 0); for (int l : route) in_first[l] = 1; }
    int shared = 0;
    for (int l : route) shared += in_first[l];
    std::string reply = "route " + std::to_string(listed.size()) + " cost " + std::to_string(cost) + " m links "
        + std::to_string(route.size()) + " shared " + std::to_string(shared) + " via";
    for (int l : route) reply += " " + std::to_string(l);
    return reply;
}

static std::string answer(const std::string& line) {
    int a, b, size = 0;
    if (line == "next") return next();
    if (line == "end") { if (!is_open) return "refused 12"; is_open = false; return "ok"; }
    if (sscanf(line.c_str(), "ask %d %d%n", &a, &b, &size) != 2 || (size_t)size != line.size()) return "refused 20";
    if (is_open) return "refused 11";
    if (a < 1 || a > most_nodes || b < 1 || b > most_nodes) return "refused 2";
    ask(a, b);
    return "ok";
}

static std::vector<unsigned char> read_all(FILE* file) {
    std::vector<unsigned char> bytes;
    unsigned char part[65536];
    for (size_t n; file && (n = fread(part, 1, sizeof part, file)) > 0;) bytes.insert(bytes.end(), part, part + n);
    return bytes;
}

int main() {
    if (!read_image(read_all(fopen("map.img", "rb")))) { puts("refused 17"); return 0; }
    auto bytes = read_all(stdin);
    std::string input(bytes.begin(), bytes.end());
    for (size_t at = 0; at < input.size();) {
        size_t end = std::min(input.find('\n', at), input.size());
        puts(answer(input.substr(at, end - at)).c_str());
        at = end + 1;
    }
    return 0;
}
