// A C++ program over the functions for C. Of every three files it plans the sheet, prints the plan, and compares plan and page with the other two.
#include "sevulamon.h"

#include <fstream>
#include <iostream>
#include <iterator>
#include <vector>

static std::vector<uint8_t> bytes_of(const char *name) {
    std::ifstream file(name, std::ios::binary);
    return std::vector<uint8_t>(std::istreambuf_iterator<char>(file), std::istreambuf_iterator<char>());
}

static bool is_planned(const std::vector<uint8_t> &sheet, const std::vector<uint8_t> &due) {
    std::vector<uint8_t> plan(SEVULAMON_PLAN_LENGTH);
    sevulamon_answer answer = sevulamon_plan(sheet.data(), sheet.size(), plan.data(), plan.size());
    plan.resize(answer.length);
    sevulamon_judged judged = sevulamon_judge(sheet.data(), sheet.size(), plan.data(), plan.size());
    return answer.number == SEVULAMON_ACCEPTED && plan == due && judged.number == SEVULAMON_ACCEPTED;
}

static bool is_printed(const std::vector<uint8_t> &sheet, const std::vector<uint8_t> &plan, const std::vector<uint8_t> &due) {
    std::vector<uint8_t> page(SEVULAMON_PAGE_LENGTH);
    sevulamon_answer answer = sevulamon_page(sheet.data(), sheet.size(), plan.data(), plan.size(), page.data(), page.size());
    page.resize(answer.length);
    return answer.number == SEVULAMON_ACCEPTED && page == due;
}

int main(int argc, char **argv) {
    bool all = argc > 3;
    for (int i = 1; i + 2 < argc; i += 3) {
        const std::vector<uint8_t> sheet = bytes_of(argv[i]), plan = bytes_of(argv[i + 1]), page = bytes_of(argv[i + 2]);
        if (!is_planned(sheet, plan) || !is_printed(sheet, plan, page)) {
            std::cout << argv[i] << ": its plan is not " << argv[i + 1] << ", or its page not " << argv[i + 2] << "\n";
            all = false;
        }
    }
    std::cout << (argc - 1) / 3 << " sheets planned and printed from C++, version " SEVULAMON_VERSION "\n";
    return all ? 0 : 1;
}
