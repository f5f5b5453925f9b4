// A network of the benchmark, read from a file that `networks` has written.
#pragma once

#include <cstdint>
#include <filesystem>
#include <fstream>
#include <stdexcept>
#include <string>
#include <vector>

struct Network {
    std::string name;
    // As document 01 has them: the arcs of node i are those from starts[i] up to, not including, starts[i + 1].
    std::vector<uint32_t> starts, neighbours, weights;
    // The nodes that the benchmark asks about.
    std::vector<uint32_t> sites;

    uint32_t nodes() const { return static_cast<uint32_t>(starts.size() - 1); }
    size_t arcs() const { return neighbours.size(); }
};

// A length and so many words. The machine's words have their lowest byte first, as the file's have.
inline std::vector<uint32_t> read_words(std::istream &file) {
    uint32_t length = 0;
    file.read(reinterpret_cast<char *>(&length), sizeof length);
    std::vector<uint32_t> words(length);
    file.read(reinterpret_cast<char *>(words.data()), static_cast<std::streamsize>(length * sizeof(uint32_t)));
    return words;
}

inline Network read_network(const std::filesystem::path &path) {
    std::ifstream file(path, std::ios::binary);
    Network network;
    network.name = path.filename().string();
    for (auto *words : {&network.starts, &network.neighbours, &network.weights, &network.sites}) {
        *words = read_words(file);
    }
    if (!file) {
        throw std::runtime_error("can't read " + path.string());
    }
    return network;
}
