/* The library from C++: opens a supervisor over the data part of an input of the program's `run`, which comes by
 * standard input, and judges the readings of examples/approach. Of each row it writes the time, the traction cut-off,
 * the service brake, the emergency brake and whether it is covered. */
#include "sdm.hpp"

#include <iostream>
#include <string>

static const sdm_cpp::Reading READINGS[] = {
    {0, 799990, 799990, 799990, 20000, 0, 0},
    {5, 800010, 800010, 800010, 20000, 0, 0},
    {10, 810000, 810000, 810000, 15000, 0, 0},
    {50, 900000, 900000, 900000, 0, 0, 0},
};

/* The lines before the dividing line. */
static std::string data_part(std::istream &from) {
    std::string data;
    for (std::string line; std::getline(from, line) && line != "%%";)
        data += line + "\n";
    return data;
}

int main() {
    auto supervisor = sdm_cpp::Supervisor::open(data_part(std::cin));
    if (!supervisor) {
        std::cerr << sdm_cpp::text(supervisor.error().status) << "\n" << supervisor.error().line();
        return 1;
    }
    for (const auto &reading : READINGS) {
        auto row = supervisor->cycle(reading);
        if (!row) {
            std::cerr << sdm_cpp::text(row.error()) << "\n";
            return 1;
        }
        std::cout << row->time_ds << "," << row->tco << "," << row->sb << "," << row->eb << "," << row->covered << "\n";
    }
}
