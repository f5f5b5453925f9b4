// Times overlap_distances, LEMON's Dijkstra and Boost's in turn on the networks given, compares every distance, and prints
// tables in Markdown. README.md says how it is run and how they are read.
#include "contenders.hpp"

#include <algorithm>
#include <chrono>
#include <cmath>
#include <cstdio>
#include <functional>
#include <iterator>
#include <random>

// How often all sites of a network are asked about.
constexpr int PASSES = 8;

// The times of one source in milliseconds.
struct Round {
    double call, check, clearing;
    // in the order of `all_peers`
    std::vector<double> peers;

    double rest() const { return call - check - clearing; }
};

// What was measured on a network.
struct Measured {
    Network network;
    std::vector<std::string> peers;
    std::vector<Round> rounds;
};

// A row of a table: its name, and the number that it takes from a round.
struct Row {
    std::string name;
    std::function<double(const Round &)> number;
};

double milliseconds(const std::function<void()> &work) {
    const auto start = std::chrono::steady_clock::now();
    work();
    const std::chrono::duration<double, std::milli> elapsed = std::chrono::steady_clock::now() - start;
    return elapsed.count();
}

void compare(const Network &network, const Engine &engine, const Peer &peer) {
    for (uint32_t node = 0; node < network.nodes(); ++node) {
        if (engine.distance(node) != peer.distance(node)) {
            throw std::runtime_error(network.name + ": " + peer.name + " differs at node " + std::to_string(node));
        }
    }
}

// Times everything on one source. The order is drawn anew for each round: whatever ran before leaves its own data in the
// caches, so nothing may always come behind the same.
Round measure_round(uint32_t source, Engine &engine, const std::vector<std::unique_ptr<Peer>> &peers,
                    std::mt19937 &random) {
    Round round{0, 0, 0, std::vector<double>(peers.size())};
    std::vector<std::function<void()>> turns = {
        [&] { round.call = milliseconds([&] { engine.run(source); }); },
        [&] { round.check = milliseconds([&] { engine.check(); }); },
        [&] { round.clearing = milliseconds([&] { engine.clear(); }); },
    };
    for (size_t i = 0; i < peers.size(); ++i) {
        turns.push_back([&, i] { round.peers[i] = milliseconds([&] { peers[i]->run(source); }); });
    }
    std::shuffle(turns.begin(), turns.end(), random);
    for (const auto &turn : turns) {
        turn();
    }
    return round;
}

// A round for each site, so many times over; the first time warms up and is dropped. Behind each round all distances are
// compared.
Measured measure(Network network) {
    Engine engine(network);
    const auto peers = all_peers(network);
    std::mt19937 random(1);
    Measured measured;
    for (int pass = 0; pass <= PASSES; ++pass) {
        for (const uint32_t site : network.sites) {
            const Round round = measure_round(site, engine, peers, random);
            for (const auto &peer : peers) {
                compare(network, engine, *peer);
            }
            if (pass > 0) {
                measured.rounds.push_back(round);
            }
        }
    }
    for (const auto &peer : peers) {
        measured.peers.push_back(peer->name);
    }
    measured.network = std::move(network);
    return measured;
}

// The median of the rounds and, in brackets, the quartiles.
std::string spread(const std::vector<Round> &rounds, const Row &row, int places) {
    std::vector<double> numbers;
    std::transform(rounds.begin(), rounds.end(), std::back_inserter(numbers), row.number);
    std::sort(numbers.begin(), numbers.end());
    const auto at = [&](double part) {
        const double place = part * static_cast<double>(numbers.size() - 1);
        const double low = numbers[static_cast<size_t>(std::floor(place))];
        const double high = numbers[static_cast<size_t>(std::ceil(place))];
        return low + (high - low) * (place - std::floor(place));
    };
    char text[80];
    std::snprintf(text, sizeof text, "**%.*f** (%.*f to %.*f)", places, at(0.5), places, at(0.25), places, at(0.75));
    return text;
}

// A number with a comma before each three digits.
std::string grouped(size_t number) {
    std::string digits = std::to_string(number);
    for (size_t place = digits.size(); place > 3; place -= 3) {
        digits.insert(place - 3, ",");
    }
    return digits;
}

void print_networks(const std::vector<Measured> &all) {
    std::printf("\n| Network | Nodes | Arcs | Scratch, words | Rounds | Distances compared |\n|---|---|---|---|---|---|\n");
    for (const Measured &measured : all) {
        const Network &network = measured.network;
        const size_t rounds = measured.rounds.size(), compared = rounds * network.nodes() * measured.peers.size();
        std::printf("| %s | %s | %s | %s | %s | %s |\n", network.name.c_str(), grouped(network.nodes()).c_str(),
                    grouped(network.arcs()).c_str(), grouped(Engine::scratch_words(network)).c_str(),
                    grouped(rounds).c_str(), grouped(compared).c_str());
    }
}

// A table with a column for each network, its numbers with so many places behind the point.
void print_table(const std::vector<Measured> &all, const char *title, const std::vector<Row> &rows, int places) {
    std::string head = std::string("| ") + title + " |", line = "|---|";
    for (const Measured &measured : all) {
        head += " " + measured.network.name + " |";
        line += "---|";
    }
    std::printf("\n%s\n%s\n", head.c_str(), line.c_str());
    for (const Row &row : rows) {
        std::printf("| %s |", row.name.c_str());
        for (const Measured &measured : all) {
            std::printf(" %s |", spread(measured.rounds, row, places).c_str());
        }
        std::printf("\n");
    }
}

std::vector<Row> time_rows(const std::vector<std::string> &peers) {
    std::vector<Row> rows = {
        {"whole call", &Round::call},
        {"network check", &Round::check},
        {"clearing", &Round::clearing},
        {"the rest", &Round::rest},
    };
    for (size_t i = 0; i < peers.size(); ++i) {
        rows.push_back({peers[i], [i](const Round &round) { return round.peers[i]; }});
    }
    return rows;
}

std::vector<Row> ratio_rows(const std::vector<std::string> &peers) {
    std::vector<Row> rows;
    for (size_t i = 0; i < peers.size(); ++i) {
        rows.push_back({"whole call / " + peers[i], [i](const Round &round) { return round.call / round.peers[i]; }});
        rows.push_back({"the rest / " + peers[i], [i](const Round &round) { return round.rest() / round.peers[i]; }});
    }
    return rows;
}

void print_tables(const std::vector<Measured> &all) {
    std::printf("LEMON %s, Boost %d.%d, g++ %s.\n", LEMON_VERSION, BOOST_VERSION / 100000, BOOST_VERSION / 100 % 1000,
                __VERSION__);
    print_networks(all);
    print_table(all, "Times, ms", time_rows(all[0].peers), 3);
    print_table(all, "Ratios", ratio_rows(all[0].peers), 2);
}

int main(int count, char **arguments) {
    if (count < 2) {
        std::fprintf(stderr, "usage: peers NETWORK ..\n");
        return 2;
    }
    try {
        std::vector<Measured> all;
        for (int i = 1; i < count; ++i) {
            all.push_back(measure(read_network(arguments[i])));
        }
        print_tables(all);
    } catch (const std::exception &error) {
        std::fprintf(stderr, "peers: %s\n", error.what());
        return 1;
    }
}
