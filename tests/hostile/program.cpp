#include "program.h"

#include <cerrno>
#include <csignal>
#include <fcntl.h>
#include <poll.h>
#include <spawn.h>
#include <stdexcept>
#include <sys/ioctl.h>
#include <sys/wait.h>
#include <unistd.h>

static const int too_late_ms = 20'000;

namespace {

class Pipe {
    int ends[2];

public:
    Pipe() {
        if (pipe2(ends, O_CLOEXEC) != 0) throw std::runtime_error("cannot make a pipe");
    }
    ~Pipe() {
        close_reader();
        close_writer();
    }
    Pipe(const Pipe &) = delete;
    int reader() const { return ends[0]; }
    int writer() const { return ends[1]; }
    void close_reader() { close_end(0); }
    void close_writer() { close_end(1); }

private:
    void close_end(int end) {
        if (ends[end] >= 0) close(ends[end]);
        ends[end] = -1;
    }
};

} // namespace

static pid_t spawn(const std::string &path, const Pipe &input, const Pipe &output, const Pipe &errors) {
    posix_spawn_file_actions_t actions;
    posix_spawn_file_actions_init(&actions);
    posix_spawn_file_actions_adddup2(&actions, input.reader(), STDIN_FILENO);
    posix_spawn_file_actions_adddup2(&actions, output.writer(), STDOUT_FILENO);
    posix_spawn_file_actions_adddup2(&actions, errors.writer(), STDERR_FILENO);
    std::string name = path;
    char *arguments[] = {name.data(), nullptr};
    pid_t process;
    int failure = posix_spawn(&process, path.c_str(), &actions, nullptr, arguments, environ);
    posix_spawn_file_actions_destroy(&actions);
    if (failure != 0) throw std::runtime_error("cannot start " + path);
    return process;
}

// Waits until the pipe is empty, or for 20 ms: a program that needs no more bytes leaves them there.
static void wait_until_taken(int pipe) {
    int bytes = 0;
    for (int turn = 0; turn < 400; turn++) {
        if (ioctl(pipe, FIONREAD, &bytes) != 0 || bytes == 0) return;
        usleep(50);
    }
}

// Whether all bytes found room. They do not once the program has ended. A pipe has room for all inputs here.
static bool write_all(int pipe, const std::string &bytes) {
    for (size_t done = 0; done < bytes.size();) {
        ssize_t count = write(pipe, bytes.data() + done, bytes.size() - done);
        if (count < 0 && errno == EINTR) continue;
        if (count < 0) return false;
        done += (size_t)count;
    }
    return true;
}

static void feed(Pipe &input, const std::vector<std::string> &pieces) {
    for (size_t k = 0; k < pieces.size(); k++) {
        if (k > 0) wait_until_taken(input.writer());
        if (!write_all(input.writer(), pieces[k])) break;
    }
    input.close_writer();
}

// Adds what the pipe holds to the bytes. False at its end.
static bool read_some(int pipe, std::string &bytes) {
    char room[32'768];
    ssize_t count = read(pipe, room, sizeof room);
    if (count > 0) bytes.append(room, (size_t)count);
    return count > 0 || (count < 0 && errno == EINTR);
}

// Reads both outputs up to their ends.
static void drain(pid_t process, const Pipe &output, const Pipe &errors, Outcome &outcome) {
    pollfd waited[] = {{output.reader(), POLLIN, 0}, {errors.reader(), POLLIN, 0}};
    std::string *bytes[] = {&outcome.output, &outcome.errors};
    for (int open = 2; open > 0;) {
        if (poll(waited, 2, too_late_ms) == 0) {
            outcome.too_late = true;
            kill(process, SIGKILL);
        }
        for (int k = 0; k < 2; k++) {
            if (waited[k].fd < 0 || waited[k].revents == 0 || read_some(waited[k].fd, *bytes[k])) continue;
            waited[k].fd = -1;
            open--;
        }
    }
}

static int status_of(pid_t process) {
    int status = 0;
    while (waitpid(process, &status, 0) < 0 && errno == EINTR) {}
    return WIFEXITED(status) ? WEXITSTATUS(status) : 128 + WTERMSIG(status);
}

Outcome run_program(const std::string &path, const std::vector<std::string> &pieces) {
    signal(SIGPIPE, SIG_IGN);
    Pipe input, output, errors;
    pid_t process = spawn(path, input, output, errors);
    input.close_reader();
    output.close_writer();
    errors.close_writer();
    Outcome outcome;
    feed(input, pieces);
    drain(process, output, errors, outcome);
    outcome.status = status_of(process);
    return outcome;
}
