// Eight nodes on the heap, locked two at a time in the order of their addresses.
#include <functional>
#include <memory>
#include <mutex>
#include <thread>
#include <vector>
struct Node {
    std::mutex m;
    int value = 0;
};
static std::vector<std::unique_ptr<Node>> nodes;
static void work(unsigned seed) {
    for (int i = 0; i < 2000; i++) {
        seed = seed * 1103515245 + 12345;
        Node *x = nodes[(seed >> 16) % 8].get(), *y = nodes[(seed >> 20) % 8].get();
        if (x == y) continue;
        if (std::less<>()(y, x)) std::swap(x, y);
        std::lock_guard g(x->m);
        std::lock_guard h(y->m);
        x->value--;
        y->value++;
    }
}
int main() {
    for (int i = 0; i < 8; i++) nodes.push_back(std::make_unique<Node>());
    std::thread t(work, 1), u(work, 7), v(work, 99);
    t.join();
    u.join();
    v.join();
}
