// The commands of a script without seals, answered from hash maps, and the report of it. It reads what
// bench/book.py makes, so it judges no input; nobody is ever promised to a vehicle, so every pickup and
// drop-off is refused. Usage: book FOLDER, or book fill: the commands of the test that fills a book.
#include <cinttypes>
#include <cstdint>
#include <cstdio>
#include <cstdlib>
#include <cstring>
#include <string>
#include <unordered_map>
#include <unordered_set>
#include <vector>

enum class Status { Waiting, Cancelled };
struct Rider { uint32_t origin, destination, second; Status status; };
struct Vehicle { uint32_t node, second; };

struct Entry { unsigned lane; std::string asked; std::string reply; };

struct Book {
    std::unordered_set<uint32_t> nodes;
    std::unordered_map<uint32_t, Vehicle> vehicles;
    std::unordered_map<uint32_t, Rider> riders;
    size_t pool = 0;

    std::string submit(uint32_t id, uint32_t origin, uint32_t destination, uint32_t second) {
        if (riders.count(id)) return "refused duplicate-rider";
        if (!nodes.count(origin) || !nodes.count(destination)) return "refused unknown-node";
        if (origin == destination) return "refused same-place";
        if (pool >= 1000) return "refused pool-full";
        if (riders.size() >= 100000) return "refused book-full";
        riders.emplace(id, Rider{origin, destination, second, Status::Waiting});
        pool++;
        return "accepted";
    }

    std::string cancel(uint32_t id) {
        auto found = riders.find(id);
        if (found == riders.end()) return "refused unknown-rider";
        if (found->second.status == Status::Cancelled) return "refused ended cancelled";
        found->second.status = Status::Cancelled;
        pool--;
        return "cancelled";
    }

    std::string report(uint32_t vehicle, uint32_t node, uint32_t second) {
        auto found = vehicles.find(vehicle);
        if (found == vehicles.end()) return "refused unknown-vehicle";
        if (!nodes.count(node)) return "refused unknown-node";
        if (second < found->second.second) return "refused time-back " + std::to_string(found->second.second);
        found->second = {node, second};
        return "placed";
    }

    std::string pickup(uint32_t vehicle, uint32_t rider) {
        if (!vehicles.count(vehicle)) return "refused unknown-vehicle";
        auto found = riders.find(rider);
        if (found == riders.end()) return "refused unknown-rider";
        if (found->second.status == Status::Cancelled) return "refused ended cancelled";
        return "refused not-promised none";
    }

    std::string dropoff(uint32_t vehicle, uint32_t rider) {
        if (!vehicles.count(vehicle)) return "refused unknown-vehicle";
        if (!riders.count(rider)) return "refused unknown-rider";
        return "refused not-aboard";
    }
};

static std::string read(const std::string &name) {
    FILE *file = fopen(name.c_str(), "rb");
    if (!file) { perror(name.c_str()); exit(1); }
    std::string text;
    char part[65536];
    for (size_t n; (n = fread(part, 1, sizeof part, file)) > 0;) text.append(part, n);
    fclose(file);
    return text;
}

// The fields of each row below the header.
static std::vector<std::vector<std::string>> rows(const std::string &text) {
    std::vector<std::vector<std::string>> all;
    for (size_t at = text.find('\n') + 1; at < text.size();) {
        size_t end = text.find('\n', at);
        std::vector<std::string> fields(1);
        for (; at < end; at++) {
            if (text[at] == ',') fields.emplace_back();
            else fields.back() += text[at];
        }
        all.push_back(std::move(fields));
        at = end + 1;
    }
    return all;
}

static uint32_t number(const std::string &field) { return uint32_t(strtoul(field.c_str(), nullptr, 10)); }

static std::string answer(Book &book, const std::vector<std::string> &row) {
    const std::string &word = row[2];
    uint32_t a = number(row[3]), b = number(row[4]), c = number(row[5]), d = number(row[6]);
    if (word == "submit") return book.submit(a, b, c, d);
    if (word == "cancel") return book.cancel(a);
    if (word == "report") return book.report(a, b, c);
    if (word == "pickup") return book.pickup(a, b);
    return book.dropoff(a, b);
}

static int run(const std::string &folder) {
    Book book;
    auto network = rows(read(folder + "/network.csv"));
    for (auto &row : network) { book.nodes.insert(number(row[0])); book.nodes.insert(number(row[1])); }
    for (auto &row : rows(read(folder + "/fleet.csv")))
        book.vehicles[number(row[0])] = {number(row[2]), number(row[3])};
    printf("ridepool report 1\nsettings wait=120 delay=180 trip=4 penalty=10000 budget=200 pairs=200000 proof=0\n");
    printf("network nodes=%zu arcs=%zu\nfleet vehicles=%zu\n", book.nodes.size(), network.size(), book.vehicles.size());
    size_t position = 0;
    std::string round;
    for (auto &row : rows(read(folder + "/script.csv"))) {
        if (row[0] != round) { round = row[0]; printf("round %s\n", round.c_str()); }
        printf("%zu %s %s", position++, row[1].c_str(), row[2].c_str());
        for (size_t k = 3; k < row.size(); k++) if (!row[k].empty()) printf(" %s", row[k].c_str());
        printf(" %s\n", answer(book, row).c_str());
    }
    printf("done %zu\n", position);
    return 0;
}

// 99,000 riders who submit and give up, and 1,000 who submit.
static int fill() {
    Book book;
    for (uint32_t node = 1; node <= 5; node++) book.nodes.insert(node);
    std::vector<Entry> journal;
    for (uint32_t rider = 0; rider < 100000; rider++) {
        journal.push_back({0, "submit", book.submit(rider, 2, 4, 0)});
        if (rider < 99000) journal.push_back({0, "cancel", book.cancel(rider)});
    }
    for (auto &entry : journal) if (entry.reply.compare(0, 7, "refused") == 0) return 1;
    return journal.size() == 199000 ? 0 : 1;
}

int main(int, char **words) { return strcmp(words[1], "fill") == 0 ? fill() : run(words[1]); }
