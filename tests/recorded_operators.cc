// Each operator new and delete once; an exception that leaves one; strings in a vector, in several threads.
#include <cstddef>
#include <cstdio>
#include <new>
#include <string>
#include <thread>
#include <vector>

static void take_all() {
    std::align_val_t at{64};
    ::operator delete(::operator new(66001));
    ::operator delete(::operator new(66002), std::size_t{66002});
    ::operator delete[](::operator new[](66003));
    ::operator delete[](::operator new[](66004), std::size_t{66004});
    ::operator delete(::operator new(66005, std::nothrow), std::nothrow);
    ::operator delete[](::operator new[](66006, std::nothrow), std::nothrow);
    ::operator delete(::operator new(66007, at), at);
    ::operator delete(::operator new(66008, at), std::size_t{66008}, at);
    ::operator delete[](::operator new[](66009, at), at);
    ::operator delete[](::operator new[](66010, at), std::size_t{66010}, at);
    ::operator delete(::operator new(66011, at, std::nothrow), at, std::nothrow);
    ::operator delete[](::operator new[](66012, at, std::nothrow), at, std::nothrow);
}

static void take_strings() {
    std::vector<std::string> strings;
    for (std::size_t i = 0; i < 50; i++)
        strings.push_back(std::string(20 + i, 'x'));
}

int main() {
    volatile std::size_t much = std::size_t{1} << 62;
    try {
        ::operator delete(::operator new(much));
    } catch (const std::bad_alloc &) {
        std::puts("none");
    }
    take_all();
    std::vector<std::thread> threads;
    for (int i = 0; i < 3; i++)
        threads.emplace_back(take_strings);
    for (std::thread &thread : threads)
        thread.join();
    return 0;
}
