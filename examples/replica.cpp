// A replica for C++ that owns its handle: it moves and isn't copied, and a refusal is an exception.
//
//   c++ -std=c++17 -I include examples/replica.cpp release/libjcrdt.a -o replica && ./replica
//
// The program keeps each operation's line, and stores it before it sends it: see jcrdt.h and store.c.

#include "jcrdt.h"

#include <cstdlib>
#include <iostream>
#include <new>
#include <stdexcept>
#include <string>
#include <string_view>
#include <utility>
#include <vector>

// A refusal: nothing was changed. `number` is that of docs/FORMATS.md.
struct Refused : std::runtime_error {
  unsigned long number;
  Refused(unsigned long its, const std::string &why) : std::runtime_error(why), number(its) {}
};

// A reply's line, and the line of the operation that was made, if one was.
struct Answer {
  std::string reply, operation;
};

class Replica {
 public:
  // Opens a new replica, or the one of a log: its lines, each with a newline.
  explicit Replica(std::string_view name, std::string_view log = "") {
    jcrdt_fault fault{};
    const auto number = jcrdt_open(&handle, name.data(), name.size(), log.data(), log.size(), &fault);
    if (number != 0) throw Refused(number, "line " + std::to_string(fault.place) + " of the log is refused");
  }
  Replica(Replica &&other) noexcept : handle(std::exchange(other.handle, JCRDT_CLOSED)) {}
  Replica &operator=(Replica &&other) noexcept {
    std::swap(handle, other.handle);
    return *this;
  }
  ~Replica() { jcrdt_close(&handle); }

  Answer ask(std::string_view request) {
    std::string text(1024, '\0');
    const auto length = jcrdt_ask(&handle, request.data(), request.size(), text.data(), text.size());
    if (length == 0) throw std::bad_alloc();
    const bool is_cut = length > text.size();
    text.resize(length);
    if (is_cut) jcrdt_again(&handle, text.data(), length);
    const auto end = text.find('\n');
    Answer answer{text.substr(0, end), text.substr(end + 1)};
    if (answer.reply.rfind("[\"no\",", 0) == 0) throw Refused(std::strtoul(&answer.reply[6], nullptr, 10), answer.reply);
    return answer;
  }

 private:
  jcrdt handle = JCRDT_CLOSED;
};

// Edits, and keeps the operation's line.
static void edit(Replica &replica, std::vector<std::string> &log, std::string_view request) {
  log.push_back(replica.ask(request).operation);
}

// Gives the operations of a log to another replica, which takes each once.
static void deliver(Replica &replica, const std::vector<std::string> &log) {
  for (const auto &line : log) replica.ask("[\"deliver\"," + line + "]");
}

int main() {
  std::vector<std::string> log, other;
  Replica made("ada");
  edit(made, log, R"(["assign",[0,"title"],"Plan"])");
  edit(made, log, R"(["assign",[0,"steps"],[]])");
  edit(made, log, R"(["insert",[0,"steps",0],"pack"])");
  Replica ada(std::move(made)), bob("bob");
  deliver(bob, log);
  edit(bob, other, R"(["assign",[0,"title"],"Oslo"])"); // both at once: the title has two values
  edit(ada, log, R"(["assign",[0,"title"],"Bergen"])");
  deliver(ada, other);
  deliver(bob, log);
  const auto shown = ada.ask(R"(["show",[0]])").reply;
  std::cout << shown << "\n" << (shown == bob.ask(R"(["show",[0]])").reply ? "both show it" : "they differ") << "\n";
  try {
    ada.ask(R"(["delete",[0,"steps",7]])");
  } catch (const Refused &refused) {
    std::cout << "refused: " << refused.number << "\n";
  }
}
