/* Options, files, lines and words are left out as long as a difference stays. */
#include "shrink.h"
#include "commands.h"
#include "formula.h"
#include "library.h"
#include <algorithm>
#include <cstdio>
#include <cstring>
#include <ctime>
#include <sys/resource.h>
#include <sys/stat.h>
#include <sys/wait.h>
#include <unistd.h>

constexpr rlim_t LONGEST = 60; /* processor seconds of a case */
constexpr time_t MOST_SECONDS = 300;

Bytes wrong_by_itself(const Case &what) {
    int ends[2];
    std::fflush(nullptr);
    if (pipe(ends) != 0) return "";
    const pid_t child = fork();
    if (child == 0) {
        const rlimit limit{LONGEST, LONGEST};
        setrlimit(RLIMIT_CPU, &limit);
        Notes notes;
        const Bytes wrong = judge_answer(what, play(what), notes);
        _exit(write(ends[1], wrong.data(), wrong.size()) < 0);
    }
    close(ends[1]);
    Bytes wrong;
    char piece[4096];
    for (ssize_t size; (size = read(ends[0], piece, sizeof piece)) > 0;) wrong.append(piece, static_cast<size_t>(size));
    close(ends[0]);
    int status = 0;
    waitpid(child, &status, 0);
    if (!WIFSIGNALED(status)) return wrong;
    const int signal = WTERMSIG(status);
    return signal == SIGXCPU || signal == SIGKILL ? "no end" : Bytes("ended by signal ") + strsignal(signal);
}

template <class Try> static bool shorter_rows(const std::vector<View> &pieces, Try try_text) {
    for (size_t size = pieces.size(); size > 0; size /= 2)
        for (size_t from = 0; from < pieces.size(); from += size) {
            Bytes text;
            for (size_t at = 0; at < pieces.size(); at++)
                if (at < from || at >= from + size) text += pieces[at];
            if (try_text(text)) return true;
        }
    return false;
}
/* words with the blank behind them */
static std::vector<View> words_with_ends(View text) {
    std::vector<View> words;
    while (!text.empty()) {
        const size_t end = text.find_first_of(" \n");
        const size_t size = end == View::npos ? text.size() : end + 1;
        words.push_back(text.substr(0, size));
        text.remove_prefix(size);
    }
    return words;
}

/* formulas with a clause, a literal or a variable less */
template <class Try> static bool smaller_formulas(const Bytes &text, Try try_text) {
    Formula formula;
    try {
        formula = read_formula(text);
    } catch (const Refused &) {
        return false;
    }
    if (try_text(canonical(formula))) return true;
    for (size_t at = 0; at < formula.matrix.size(); at++) {
        Formula less = formula;
        less.matrix.erase(less.matrix.begin() + static_cast<std::ptrdiff_t>(at));
        if (try_text(canonical(less))) return true;
        for (size_t place = 0; place < formula.matrix[at].size(); place++) {
            less = formula;
            less.matrix[at].erase(less.matrix[at].begin() + static_cast<std::ptrdiff_t>(place));
            if (try_text(canonical(less))) return true;
        }
    }
    const std::vector<int> used = used_variables(formula);
    for (size_t at = 0; at < formula.prefix.size(); at++) {
        Formula less = formula;
        less.prefix.erase(less.prefix.begin() + static_cast<std::ptrdiff_t>(at));
        if (!std::binary_search(used.begin(), used.end(), formula.prefix[at].variable) && try_text(canonical(less))) return true;
    }
    return false;
}

Case made_small(Case what) {
    int left = 3000;
    const time_t end = std::time(nullptr) + MOST_SECONDS;
    const auto better = [&](const Case &candidate) {
        if (std::time(nullptr) > end) left = 0;
        if (left-- <= 0 || wrong_by_itself(candidate).empty()) return false;
        what = candidate;
        return true;
    };
    for (bool is_smaller = true; is_smaller && left > 0;) {
        is_smaller = false;
        for (size_t at = 1; at < what.words.size() && !is_smaller; at++) {
            Case candidate = what;
            candidate.words.erase(candidate.words.begin() + static_cast<std::ptrdiff_t>(at));
            is_smaller = what.words[at].substr(0, 2) == "--" && better(candidate);
        }
        const Bytes moves = what.moves;
        is_smaller = is_smaller || shorter_rows(lines_with_ends(moves), [&](const Bytes &shorter) {
                         Case candidate = what;
                         candidate.moves = shorter;
                         return better(candidate);
                     });
        const std::map<Bytes, Bytes> files = what.files;
        for (const auto &[name, text] : files) {
            const Bytes &file = name;
            const auto try_text = [&](const Bytes &shorter) {
                Case candidate = what;
                candidate.files[file] = shorter;
                return shorter.size() < what.files[file].size() && better(candidate);
            };
            is_smaller = is_smaller || smaller_formulas(text, try_text) || shorter_rows(lines_with_ends(text), try_text) ||
                         shorter_rows(words_with_ends(text), try_text);
        }
    }
    return what;
}

static void write_file(const Bytes &path, const Bytes &text) {
    if (FILE *out = std::fopen(path.c_str(), "wb")) {
        std::fwrite(text.data(), 1, text.size(), out);
        std::fclose(out);
    }
}
void keep(const Case &what, const Bytes &folder, const Bytes &head) {
    mkdir(folder.c_str(), 0777);
    Bytes said = head + "\n";
    for (const Bytes &word : what.words) said += word + " ";
    said += what.is_by_name ? "\nby the call of its name" : "";
    said += "\nfault: " + std::to_string(static_cast<int>(what.fault.what)) + " at " + std::to_string(what.fault.at) + "\n";
    for (const auto &[name, text] : what.files) {
        said += name + ": " + text + (!text.empty() && text.back() == '\n' ? "" : "\n");
        if (name.find('/') == Bytes::npos && !name.empty() && name[0] != '.') write_file(folder + "/" + name, text);
    }
    if (!what.moves.empty()) said += "moves: " + what.moves + "\n", write_file(folder + "/moves", what.moves);
    write_file(folder + "/what", said);
    std::fwrite(said.data(), 1, said.size(), stdout);
}
