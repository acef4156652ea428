/* Plays random cases of every command with the released code, in this process, and compares each answer with a reference of its own. Each
 * job is a process; the first one watches them, and a job that crashes or finds no end is a difference too. */
#include "commands.h"
#include "counts.h"
#include "library.h"
#include "making.h"
#include "shrink.h"
#include <algorithm>
#include <csignal>
#include <cstdlib>
#include <cstring>
#include <ctime>
#include <malloc.h>
#include <sys/wait.h>
#include <unistd.h>

namespace {

const char USAGE[] =
    "usage: million [--seconds=N] [--cases=N] [--seed=N] [--jobs=N] [--verb=WORD] [--case=N] [--keep=FOLDER]\n";
struct Options {
    uint64_t seconds = 60, cases = UINT64_MAX, seed = 1, jobs = 1, number = UINT64_MAX;
    Bytes verb, keep = "million-difference";
};
constexpr double LONGEST = 120; /* processor seconds of one case */

volatile sig_atomic_t is_over = 0;
void end_run(int) { is_over = 1; }

double now() {
    timespec t;
    clock_gettime(CLOCK_MONOTONIC, &t);
    return static_cast<double>(t.tv_sec) + 1e-9 * static_cast<double>(t.tv_nsec);
}

/* the processor seconds of a process */
double cost_of(pid_t process) {
    clockid_t clock;
    timespec t;
    if (clock_getcpuclockid(process, &clock) != 0 || clock_gettime(clock, &t) != 0) return 0;
    return static_cast<double>(t.tv_sec) + 1e-9 * static_cast<double>(t.tv_nsec);
}

bool take_option(Options &options, const char *word) {
    const char *value = std::strchr(word, '=');
    if (!value++) return false;
    const Bytes name(word, value - word - 1);
    if (name == "--verb") return options.verb = value, shape_of(options.verb) != nullptr;
    if (name == "--keep") return options.keep = value, true;
    uint64_t *number = name == "--seconds" ? &options.seconds
                       : name == "--cases" ? &options.cases
                       : name == "--seed"  ? &options.seed
                       : name == "--jobs"  ? &options.jobs
                       : name == "--case"  ? &options.number
                                           : nullptr;
    if (!number) return false;
    char *end;
    *number = std::strtoull(value, &end, 10);
    return *value && !*end;
}

Case case_of(const Options &options, uint64_t number) {
    Chance chance(options.seed, number);
    return some_case(chance, options.verb);
}

/* one settles at once what was settled */
Bytes settles_again(const Case &what, const Answer &answer) {
    if (answer.status != 0 || what.words.empty() || what.words[0] != "simplify" || what.fault.what != Fault::What::None ||
        !answer.made.count(what.words[2]))
        return "";
    Case again = what;
    const Bytes text = answer.made.at(what.words[2]);
    again.files = {{what.words[1], text}};
    again.words.erase(
        std::remove_if(again.words.begin() + 4, again.words.end(), [](const Bytes &w) { return w.substr(0, 9) == "--budget="; }),
        again.words.end());
    const Answer second = play(again);
    const bool is_same = second.status == 0 && second.made == std::map<Bytes, Bytes>{{what.words[2], text}};
    return is_same ? "" : "wanted no rule on a settled formula";
}

/* whether the case was as it should be */
bool play_one(const Options &options, uint64_t number, Counts &counts) {
    const Case what = case_of(options, number);
    const Answer answer = play(what);
    Notes notes;
    Bytes wrong = judge_answer(what, answer, notes);
    if (wrong.empty() && number % 4 == 0) wrong = settles_again(what, answer);
    counts.add("Cases by command and answer", notes.kind, notes.answer);
    for (size_t kind = 0; kind < 5; kind++)
        for (size_t reason = 0; reason < 5; reason++)
            if (notes.steps[kind][reason])
                counts.add("Steps that were judged and are valid", kind_name(kind), reason_name(reason), notes.steps[kind][reason]);
    for (const char *seen : notes.seen) counts.add("What else was judged", seen, "");
    return wrong.empty();
}

int run_job(const Options &options, uint64_t job, Shared &shared, double end) {
    mallopt(M_MMAP_THRESHOLD, 1 << 25), mallopt(M_TRIM_THRESHOLD, 1 << 30),
        mallopt(M_TOP_PAD, 1 << 22); /* what is given back is kept here */
    Counts counts(shared);
    for (uint64_t number = job; number < options.cases && !is_over && now() < end; number += options.jobs) {
        shared.jobs[job].number = number;
        if (!play_one(options, number, counts)) return 1;
        shared.jobs[job].played++;
    }
    return 0;
}

void tell(const Options &options, uint64_t number) {
    Case what = case_of(options, number);
    const Bytes wrong = wrong_by_itself(what);
    std::printf("case %llu of seed %llu: %s\n", static_cast<unsigned long long>(number), static_cast<unsigned long long>(options.seed),
                wrong.c_str());
    std::fflush(stdout);
    if (wrong.empty()) return;
    what = made_small(what);
    const Answer answer = wrong.compare(0, 8, "ended by") && wrong != "no end" ? play(what) : Answer();
    keep(what, options.keep, wrong_by_itself(what) + "; came " + std::to_string(answer.status) + " '" + answer.line + "'");
}

/* waits for the jobs; the number of the first case with a difference, or none */
uint64_t watch(std::vector<pid_t> &jobs, Shared &shared, double start) {
    std::vector<std::pair<uint64_t, double>> seen(jobs.size(), {UINT64_MAX, 0});
    uint64_t found = UINT64_MAX;
    double next = start + 1;
    for (size_t left = jobs.size(); left > 0;) {
        int status;
        const pid_t ended = waitpid(-1, &status, WNOHANG);
        for (size_t job = 0; job < jobs.size() && ended > 0; job++) {
            if (jobs[job] != ended) continue;
            jobs[job] = 0, left--;
            if (status != 0) found = std::min(found, shared.jobs[job].number.load());
        }
        for (size_t job = 0; job < jobs.size(); job++) {
            const uint64_t number = shared.jobs[job].number;
            if (!jobs[job]) continue;
            if (seen[job].first != number) seen[job] = {number, cost_of(jobs[job])};
            else if (cost_of(jobs[job]) - seen[job].second > LONGEST) kill(jobs[job], SIGKILL);
            if (found != UINT64_MAX || is_over) kill(jobs[job], SIGTERM);
        }
        if (now() >= next) {
            std::fprintf(stderr, "%6.0f s %12llu cases\n", next - start, static_cast<unsigned long long>(played(shared)));
            next += 1;
        }
        if (ended <= 0) usleep(50000);
    }
    return found;
}

} // namespace

int main(int count, char **words) {
    Options options;
    for (int at = 1; at < count; at++)
        if (!take_option(options, words[at])) return std::fputs(USAGE, stderr), 64;
    if (options.jobs < 1 || options.jobs > MOST_JOBS) return std::fputs(USAGE, stderr), 64;
    if (options.number != UINT64_MAX) return tell(options, options.number), 0;
    Shared *shared = new_shared();
    if (!shared) return 6;
    std::signal(SIGINT, end_run), std::signal(SIGTERM, end_run);
    const double start = now();
    std::vector<pid_t> jobs;
    for (uint64_t job = 0; job < options.jobs; job++) {
        const pid_t child = fork();
        if (child == 0) _exit(run_job(options, job, *shared, start + static_cast<double>(options.seconds)));
        jobs.push_back(child);
    }
    const uint64_t found = watch(jobs, *shared, start);
    show_counts(*shared, stdout);
    const double seconds = now() - start;
    std::printf("seed %llu: %llu cases in %.0f seconds, %s\n", static_cast<unsigned long long>(options.seed),
                static_cast<unsigned long long>(played(*shared)), seconds, found == UINT64_MAX ? "0 differences" : "1 difference");
    std::fflush(stdout);
    if (found != UINT64_MAX) tell(options, found);
    return found != UINT64_MAX;
}
