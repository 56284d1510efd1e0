template <int N> struct Key {
    int value;
    bool operator<(const Key &o) const { return value % (N + 2) < o.value % (N + 2); }
};

template <int N> int work(int seed) {
    std::map<Key<N>, std::vector<Key<N>>> table;
    for (int i = 0; i < seed; i++) table[Key<N>{i}].push_back(Key<N>{i * N});
    std::vector<Key<N>> all;
    for (auto &entry : table) all.insert(all.end(), entry.second.begin(), entry.second.end());
    std::sort(all.begin(), all.end());
    std::stable_sort(all.begin(), all.end(),
                     [](const Key<N> &a, const Key<N> &b) { return b < a; });
    std::unordered_map<int, std::function<int(int)>> calls;
    for (auto &key : all) calls[key.value] = [key](int x) { return x + key.value + N; };
    std::ostringstream out;
    for (auto &call : calls) out << call.second(seed) << ",";
    return (int)out.str().size();
}
