// Runs any command of obs within a C++ program, over files that this program reads, and prints what obs prints.
//
// Usage: answer WORDS, the words of obs; `answer report tables NODES SWITCHES BRANCHES METERS` is a report. The status is that of obs, and
// 70 where this program fails. With the library installed it is built by
//
//     c++ -o answer examples/cpp/answer.cpp $(pkg-config --cflags --libs obs)
#include <cstddef>
#include <cstdio>
#include <fstream>
#include <stdexcept>
#include <string>
#include <vector>

#include "obs.h"

namespace {

const int own_failure = 70;

// Bytes as the calls of obs.h take them: the pointer is never null.
const uint8_t *block_of(const std::string &bytes)
{
    return reinterpret_cast<const uint8_t *>(bytes.c_str());
}

std::string read_file(const std::string &name)
{
    std::ifstream file(name.c_str(), std::ios::binary);
    std::string content;
    char piece[4096];
    while (file.read(piece, sizeof piece) || file.gcount() > 0) content.append(piece, static_cast<std::size_t>(file.gcount()));
    if (!file.eof() || file.bad()) throw std::runtime_error("this file can't be read: " + name);
    return content;
}

// The words of a call, each ended by a zero byte, with the contents of the files that they name.
class Call {
public:
    void add(const std::string &word)
    {
        words.append(word.c_str(), word.size() + 1);
        lengths.push_back(0);
    }

    void add_file(const std::string &name)
    {
        add(name);
        const std::string content = read_file(name);
        contents += content;
        lengths.back() = content.size();
    }

    // Runs obs with these words, with a longer block for the text as long as that is too short.
    int run(std::string &text) const
    {
        std::vector<uint8_t> room(65536);
        const std::vector<size_t> sizes = lengths.empty() ? std::vector<size_t>(1) : lengths;
        for (;;) {
            size_t written = 0;
            const int status = obs_run(block_of(words), words.size(), block_of(contents), contents.size(), &sizes[0], lengths.size(),
                                       block_of(""), 0, &room[0], room.size(), &written);
            if (status == OBS_TEXT_TOO_LONG) {
                room.resize(4 * room.size());
                continue;
            }
            text.assign(room.begin(), room.begin() + static_cast<std::ptrdiff_t>(written));
            return status;
        }
    }

private:
    std::string words, contents;
    std::vector<size_t> lengths;
};

// Words behind the command and the form name files; `with` doesn't where it stands behind them.
int answer(const std::vector<std::string> &words)
{
    Call call;
    const bool is_trial = !words.empty() && words[0] == "trial";
    const size_t first = !words.empty() && words[0] == "topology" ? 1 : 2;
    for (size_t k = 0; k < words.size(); k++) {
        if (k < first || is_trial || words[k] == "with") {
            call.add(words[k]);
        } else {
            call.add_file(words[k]);
        }
    }
    std::string text;
    const int status = call.run(text);
    std::fwrite(text.data(), 1, text.size(), stdout);
    return status;
}

}  // namespace

int main(int count, char **words)
{
    if (obs_version() / 1000 != OBS_VERSION_NUMBER / 1000) {
        std::fprintf(stderr, "answer: the library isn't of version %d.%d\n", OBS_VERSION_MAJOR, OBS_VERSION_MINOR);
        return own_failure;
    }
    try {
        return answer(std::vector<std::string>(words + 1, words + count));
    } catch (const std::exception &failure) {
        std::fprintf(stderr, "answer: %s\n", failure.what());
        return own_failure;
    }
}
