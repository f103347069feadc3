// Swift's own demangler as three C functions, for the bench and for the line filter below.
//
// Built by ./build from Debian's package; this file has nothing of Swift's source.
#include "swift/Demangling/Demangle.h"
#include "swift/Demangling/Demangler.h"

#include <cstdio>
#include <cstring>
#include <string>

using namespace swift::Demangle;

// As the tool swift-demangle prints: `Swift.Int?` for an Optional.
static DemangleOptions options() {
  DemangleOptions all;
  all.SynthesizeSugarOnTypes = true;
  return all;
}

static long give(const std::string &text, char *out, size_t room) {
  size_t length = text.size() < room ? text.size() : room;
  memcpy(out, text.data(), length);
  return (long)text.size();
}

// The text of one symbol, its length, or -1 if Swift gives no tree or no text. At most `room` bytes
// are written. One context is kept and emptied after each name, like a tool that reads many names:
// the fastest way to call it.
extern "C" long swift_own_demangle(const char *name, size_t length, char *out, size_t room) {
  static Context context;
  NodePointer root = context.demangleSymbolAsNode(llvm::StringRef(name, length));
  long answer = -1;
  if (root) {
    std::string text = nodeToString(root, options());
    if (!text.empty())
      answer = give(text, out, room);
  }
  context.clear();
  return answer;
}

// The same, using the single call that the library has for it, with a separate context for each
// name.
extern "C" long swift_own_demangle_afresh(const char *name, size_t length, char *out, size_t room) {
  std::string text = demangleSymbolAsString(llvm::StringRef(name, length), options());
  return give(text, out, room);
}

// Only the tree, no text: 1 if there is one.
extern "C" long swift_own_tree(const char *name, size_t length) {
  static Context context;
  NodePointer root = context.demangleSymbolAsNode(llvm::StringRef(name, length));
  context.clear();
  return root ? 1 : 0;
}

#ifdef FILTER
// One line for each name: `=`, tab, text; or `!`.
int main() {
  static char in[1 << 20], out[1 << 20];
  static char line[1 << 20], text[1 << 22];
  setvbuf(stdin, in, _IOFBF, sizeof in);
  setvbuf(stdout, out, _IOFBF, sizeof out);
  size_t length = 0;
  for (;;) {
    int c = getc_unlocked(stdin);
    if (c == EOF && length == 0)
      break;
    if (c != EOF && c != '\n') {
      if (length < sizeof line)
        line[length++] = (char)c;
      continue;
    }
    long n = swift_own_demangle(line, length, text, sizeof text);
    if (n < 0) {
      fputs_unlocked("!\n", stdout);
    } else {
      fputs_unlocked("=\t", stdout);
      fwrite_unlocked(text, 1, n < (long)sizeof text ? n : sizeof text, stdout);
      putc_unlocked('\n', stdout);
    }
    length = 0;
#ifdef AT_ONCE
    fflush(stdout); // a failed assertion ends the process: what was read before it must be written
#endif
    if (c == EOF)
      break;
  }
  return 0;
}
#endif
