// Runs a program with pipes on its standard streams.
#ifndef PROGRAM_H
#define PROGRAM_H

#include <string>
#include <vector>

struct Outcome {
    std::string output, errors;
    int status = 0; // 128 and the signal if one ended the program
    bool too_late = false;
};

// The program gets each piece of its input once it has taken the one before. It is ended if it prints nothing for 20 seconds.
Outcome run_program(const std::string &path, const std::vector<std::string> &pieces);

#endif
