// Reads a replay script and times how long libprotobuf takes to parse its messages, each into a fresh FeedMessage.
#include <chrono>
#include <cstdio>
#include <fstream>
#include <iterator>
#include <sstream>
#include <string>
#include <vector>

#include "gtfs_realtime.pb.h"

static std::vector<std::string> payloads_of(const std::string& script) {
  std::vector<std::string> payloads;
  std::size_t at = 0;
  while (at < script.size()) {
    std::size_t end = script.find('\n', at);
    std::istringstream words(script.substr(at, end - at));
    std::string letter, feed;
    std::size_t length = 0;
    words >> letter >> feed >> length;
    at = end + 1;
    if (letter == "M") {
      payloads.push_back(script.substr(at, length));
      at += length + 1;
    }
  }
  return payloads;
}

int main(int, char** words) {
  std::ifstream input(words[1], std::ios::binary);
  const std::string script((std::istreambuf_iterator<char>(input)), std::istreambuf_iterator<char>());
  const std::vector<std::string> payloads = payloads_of(script);
  double best = 0;
  for (int round = 0; round < 5; ++round) {
    std::size_t bytes = 0, entities = 0;
    const auto start = std::chrono::steady_clock::now();
    for (const std::string& payload : payloads) {
      transit_realtime::FeedMessage message;
      if (!message.ParseFromString(payload)) return 1;
      bytes += payload.size();
      entities += message.entity_size();
    }
    const std::chrono::duration<double> spent = std::chrono::steady_clock::now() - start;
    const double rate = bytes / spent.count() / 1e6;
    if (rate > best) best = rate;
    if (entities == 0) return 1;
  }
  std::printf("%.0f\n", best);
}
