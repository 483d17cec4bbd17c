// Receives a recording at rate 1/2 with a depth, as receive.c does: soft octets from standard input, frames to standard output.
//
//     c++ -std=c++17 -o receive examples/c/receive.cpp $(pkg-config --cflags --libs tmchan)
//     ./receive 5 <symbols >frames
#include <cstdio>
#include <cstdlib>
#include <stdexcept>
#include <vector>

#include "tmchan.h"

static int64_t checked(int64_t answer) {
    char text[TMCHAN_TEXT_LENGTH];
    if (answer >= 0) return answer;
    tmchan_text(answer, text, sizeof text);
    throw std::runtime_error(text);
}

int main(int argc, char **argv) try {
    tmchan_config config;
    tmchan_config_defaults(&config);
    tmchan_config_recording(&config);
    config.depth = std::strtoull(argc > 1 ? argv[1] : "1", nullptr, 10);
    tmchan_stream receiver{};
    checked(tmchan_receiver_open(&receiver, &config));
    std::vector<uint8_t> piece(65536);
    uint64_t octets;
    std::vector<tmchan_report> reports(checked(tmchan_receiver_room(&config, piece.size(), &octets)));
    std::vector<uint8_t> frames(octets);
    tmchan_written written;
    while (std::size_t count = std::fread(piece.data(), 1, piece.size(), stdin)) {
        checked(tmchan_receiver_push(&receiver, piece.data(), count, frames.data(), frames.size(), reports.data(), reports.size(), &written));
        std::fwrite(frames.data(), 1, written.octets, stdout);
    }
    tmchan_totals totals;
    tmchan_phase phase;
    checked(tmchan_receiver_finish(&receiver, frames.data(), frames.size(), reports.data(), reports.size(), &totals, &phase, &written));
    std::fwrite(frames.data(), 1, written.octets, stdout);
    return std::fflush(stdout) ? 4 : 0;
} catch (const std::exception &fault) {
    std::fprintf(stderr, "%s\n", fault.what());
    return 2;
}
