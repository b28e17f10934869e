// A router to begin with: each net breadth first, past all that earlier nets have taken.
// usage: greedy NX NY GRAPH NETS >ROUTE
// GRAPH is what `pathfinder graph ARCH NX NY WIDTH` prints, and NETS what `pathfinder nets` prints.
#include <cstdio>
#include <cstdlib>
#include <deque>
#include <fstream>
#include <iostream>
#include <set>
#include <sstream>
#include <string>
#include <vector>

int main(int, char **words) {
  // The device. Of each node: its line in a routing, for how many nets it has room, its successors.
  std::vector<std::string> lines;
  std::vector<int> room;
  std::vector<std::vector<int>> leads_to;
  std::ifstream graph(words[3]), nets(words[4]);
  std::string line, word, name;
  int from, to, number, source, sink;
  for (std::getline(graph, line); std::getline(graph, line);) {
    if (std::sscanf(line.c_str(), "%d -> %d", &from, &to) == 2) {
      leads_to[from].push_back(to);
    } else {
      size_t begin = line.find(' ') + 1, end = line.find(" cap ");
      lines.push_back(line.substr(begin, end - begin));
      room.push_back(std::atoi(line.c_str() + end + 5));
      leads_to.emplace_back();
    }
  }
  std::cout << "Array size: " << words[1] << " x " << words[2] << " logic blocks.\n\nRouting:\n";
  while (std::getline(nets, line)) {
    std::istringstream parts(line);
    parts >> word >> number >> name >> word >> source >> word;
    std::set<int> wanted;
    while (parts >> sink) wanted.insert(sink);
    std::cout << "\nNet " << number << " (" << name << ")\n\n";
    std::vector<int> tree{source};
    while (!wanted.empty()) {
      // From all nodes of the tree, but for the source once one step has left it.
      std::vector<int> came_from(lines.size(), -1);
      std::deque<int> queue(tree.begin() + (tree.size() > 1), tree.end());
      for (int node : tree) came_from[node] = node;
      while (!queue.empty() && !wanted.count(queue.front())) {
        int node = queue.front();
        queue.pop_front();
        for (int other : leads_to[node]) {
          bool is_fit = wanted.count(other) || !leads_to[other].empty();  // no sink of another net
          if (is_fit && room[other] > 0 && came_from[other] < 0) {
            came_from[other] = node;
            queue.push_back(other);
          }
        }
      }
      if (queue.empty()) {
        std::cerr << "net " << name << " is stuck\n";
        return 1;
      }
      std::deque<int> way{queue.front()};
      while (came_from[way.front()] != way.front()) way.push_front(came_from[way.front()]);
      for (int node : way) std::cout << lines[node] << "\n";
      for (size_t at = 1; at < way.size(); at++) {
        room[way[at]]--;
        tree.push_back(way[at]);
      }
      wanted.erase(way.back());
    }
  }
}
