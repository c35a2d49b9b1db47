/* maps WORK WORD..: what `lynx_bench WORK WORD..` does in memory, done in C++ with std::map and std::vector (server.hpp), to be
   timed from outside. The works:

       begin COUNT           so many requests begin a chain at the first of two servers
       deliver COUNT         they begin, and then their messages are delivered to the second server
       open COUNT            they begin, and then the first server is opened again over what it kept
       weave SHAPE COUNT     chains run until there are so many entries, and copies of the histories are woven to a world: 2 or
                             16 servers in a ring pay to the next in turn, or the shape is adds, alternating, cells or cycle
       encode COUNT          the encoding of a message is written until so many bytes are
       feed PIECE COUNT      about so many bytes of encodings are read, in pieces of that size

   It prints what lynx_bench prints: how much was done. tests/bench runs the two in turn.

   c++ -std=c++17 -O2 -o maps tests/baselines/maps.cpp */
#include "server.hpp"
#include <set>
#include <string>

constexpr Word GREATEST = ~Word(0);

// A program of two hops, the first with a need that is met.
static const Set PAYMENT{2, {{999, 0}, {GREATEST, 1}}, {program(1, {
    {0, {{Verb::get, 0}, {Verb::need, at(1), at(0)}, {Verb::sub, 0, at(0)}}},
    {1, {{Verb::add, 1000, at(0)}}}})}};

static Word begin_all(Server &server, Word count) {
    Word begun = 0;
    for (Word number = 0; number < count; number++) begun += server.begin({1, number, 0, {0}}, 0).told == Told::begun;
    return begun;
}

static Word deliver_all(const Server &from, Server &to) {
    Word done = 0;
    for (const Entry &entry : from.history)
        if (auto message = next_of(*from.set, entry)) done += to.deliver(std::move(*message)).came == Came::done;
    return done;
}

// A program for each server of a ring, which does that to a cell there and then to one of the next.
static Set ring(Verb verb, Byte servers) {
    Set set{servers, {}, {}};
    for (Byte here = 0; here < servers; here++) {
        Byte next = Byte((here + 1) % servers);
        set.shards.push_back({here + 1 < servers ? here * 10u + 9 : GREATEST, here});
        set.programs.push_back(program(0, {{here, {{verb, here * 10u, 1}}}, {next, {{verb, next * 10u, 1}}}}));
    }
    return set;
}

// A program that adds to a cell, and one that gets it.
static const Set ONE{1, {{GREATEST, 0}}, {
    program(1, {{0, {{Verb::add, at(0), 1}}}}),
    program(1, {{0, {{Verb::get, at(0)}}}})}};

// What the chains of a shape do at the servers, in so many entries.
static void run_shape(vector<Server> &servers, const std::string &shape, Word entries) {
    auto begin = [&](size_t server, Word program, Word number, Args args) {
        servers[server].begin({1, number, Byte(program), std::move(args)}, 0);
        return next_of(*servers[server].set, servers[server].history.back());
    };
    if (servers.size() == 1) {
        for (Word number = 0; number < entries; number++)
            begin(0, shape == "alternating" ? number % 2 : 0, number, {shape == "cells" ? number : 0});
        return;
    }
    bool crosses = shape == "cycle";  // Then the last two chains meet, and precede each other.
    Word chains = crosses ? std::max<Word>(entries / 2, 2) - 2 : entries / 2;
    for (Word number = 0; number < chains; number++) {
        size_t here = number % servers.size();
        servers[(here + 1) % servers.size()].deliver(*begin(here, here, number, {}));
    }
    if (!crosses) return;
    auto right = begin(0, 0, chains, {}), left = begin(1, 1, chains, {});
    servers[1].deliver(*right), servers[0].deliver(*left);
}

static Word weave_all(const std::string &shape, Word entries) {
    bool is_ring = shape == "2" || shape == "16";
    Set set = is_ring ? ring(Verb::add, Byte(std::stoi(shape))) : shape == "cycle" ? ring(Verb::set, 2) : ONE;
    vector<vector<Entry>> histories;
    {
        vector<Server> servers;
        for (Byte number = 0; number < set.servers; number++) servers.push_back({&set, number, Keeper{}});
        run_shape(servers, shape, entries);
        for (const Server &server : servers) histories.push_back(server.history);
    }
    return weave(set, std::move(histories)).order.size();
}

// The encodings of a payment of 30: the entry of its begin, its message, and the entry of its second hop.
static vector<Entry> encodings() {
    Entry begun(BEGUN);
    begun.client = 1, begun.number = 8, begun.args = {30}, begun.chain = {0, 7}, begun.numbers = {{0, 7}, {1, 5}};
    begun.results = {100};
    Message sent = *next_of(PAYMENT, begun);
    return {begun, Entry(SENT, sent), Entry(RAN, sent)};
}

static Word encode_all(Word count) {
    Entry sent = encodings()[1];
    vector<Byte> out;
    Word items = 0;
    for (Word bytes = 0; bytes < count; bytes += out.size(), items++) {
        out.clear(), append(out, sent);
        asm volatile("" : : "r"(out.data()) : "memory");  // So that it is written each time.
    }
    return items;
}

// Gives back what stands in bytes that come in pieces of any size.
struct Feed {
    vector<Byte> bytes;
    size_t given = 0;
    void push(const Byte *piece, size_t size) {
        if (bytes.size() - given <= given) bytes.erase(bytes.begin(), bytes.begin() + given), given = 0;
        bytes.insert(bytes.end(), piece, piece + size);
    }
    optional<Entry> next() {
        auto found = front(bytes.data() + given, bytes.size() - given);
        if (!found) return {};
        given += found->second;
        return std::move(found->first);
    }
};

// The stream is so long that pieces of that size cut it evenly.
static Word feed_all(size_t piece, Word count) {
    vector<Byte> stream;
    for (size_t round = 0; round < piece; round++)
        for (const Entry &it : encodings()) append(stream, it);
    Feed feed;
    Word items = 0;
    for (Word pass = 0; pass < count / stream.size(); pass++)
        for (size_t at = 0; at < stream.size(); at += piece)
            for (feed.push(&stream[at], piece); feed.next();) items++;
    return items;
}

int main(int count, char **words) {
    const std::set<std::string> SHAPES{"2", "16", "adds", "alternating", "cells", "cycle"};
    std::string work = count > 1 ? words[1] : "", size = count > 3 ? words[2] : "";
    Word times = count > 2 ? std::strtoull(words[count - 1], nullptr, 10) : 0, done = 0;
    Server first{&PAYMENT, 0, Keeper{}}, second{&PAYMENT, 1, Keeper{}};
    if (count == 3 && work == "begin") {
        done = begin_all(first, times);
    } else if (count == 3 && work == "deliver") {
        begin_all(first, times);
        done = deliver_all(first, second);
    } else if (count == 3 && work == "open") {
        begin_all(first, times);
        Keeper keeper = std::move(*first.keeper);
        first = {&PAYMENT, 0};
        done = open(PAYMENT, 0, std::move(keeper)).history.size();
    } else if (count == 3 && work == "encode") {
        done = encode_all(times);
    } else if (count == 4 && work == "feed") {
        done = feed_all(std::max(std::stoul(size), 1ul), times);
    } else if (count == 4 && work == "weave" && SHAPES.count(size)) {
        done = weave_all(size, times);
    } else {
        std::fprintf(stderr, "maps: begin, deliver, open, encode and a count; or feed or weave, a size or shape, a count\n");
        return 2;
    }
    std::printf("%llu\n", static_cast<unsigned long long>(done));
    return 0;
}
