/* What the C++ baselines of lynx_bench share: a server that does what one of Lynx does, with std::map and std::vector.

   It has a history of entries, its cells, an index of requests and one of later hops, the place of each chain's begin,
   counters, turns, and a keeper with the encoding of each entry and with cells of its own. A begin and a delivery are asked what
   docs/PROOF.md says (request fault, answer, delivery); opening and weaving do all entries once more, and compare. Sets are made by code,
   with one table and without ranges. No message is held: one that comes early is dropped. Want of memory, and whatever isn't
   as it should be, is an exception. */
#pragma once
#include <algorithm>
#include <array>
#include <cstdint>
#include <cstdio>
#include <cstdlib>
#include <cstring>
#include <endian.h>
#include <functional>
#include <map>
#include <optional>
#include <queue>
#include <stdexcept>
#include <tuple>
#include <type_traits>
#include <utility>
#include <vector>

using std::optional, std::pair, std::size_t, std::vector;
using Byte = std::uint8_t;
using Word = std::uint64_t;

constexpr Word MAX_SERVERS = 16, MAX_PROGRAMS = 64, MAX_PARAMETERS = 8, MAX_HOPS = 8, MAX_ACTIONS = 16;
constexpr Word MAX_ENTRIES = 1'000'000, STAMP_LIMIT = Word(1) << 62, MAX_BODY_BYTES = 2'048;

inline void need(bool holds, const char *fault) {
    if (!holds) throw std::runtime_error(fault);
}

// A number below a limit, and a list of so many items at most: a Reader looks at both.
template <class Int, Word LIMIT> struct Below {
    Int value;
    Below(Int value = 0) : value(value) {}
    operator Int() const { return value; }
};
template <class T, Word MOST> struct List : vector<T> { using vector<T>::vector; };
using ServerId = Below<Byte, MAX_SERVERS>;
using ProgramId = Below<Byte, MAX_PROGRAMS>;
using Stamp = Below<Word, STAMP_LIMIT>;
using Args = List<Word, MAX_PARAMETERS>;
using Results = List<Word, MAX_ACTIONS>;

// What is asked, sent and kept. Two are equal where all fields are.
#define FIELDS(...) auto tied() const { return std::tie(__VA_ARGS__); } auto tied() { return std::tie(__VA_ARGS__); }
template <class T> auto operator==(const T &left, const T &right) -> decltype(left.tied() == right.tied()) {
    return left.tied() == right.tied();
}
struct Chain { ServerId origin; Word index; FIELDS(origin, index) };
struct NumberAt { ServerId server; Word number; FIELDS(server, number) };
using Numbers = List<NumberAt, MAX_HOPS>;
struct Request { Word client, number; ProgramId program; Args args; };
struct Message {
    Chain chain{}; ProgramId program; Byte hop = 0; Stamp sent; Args args; Numbers numbers; List<Results, MAX_HOPS> earlier;
    FIELDS(chain, program, hop, sent, args, numbers, earlier)
};
// The tag of an entry says which of its fields it has: those of its encoding (docs/FORMATS.md). That of a message has no others.
enum Tag : Byte { SENT = 0x21, BEGUN, REFUSED, RAN };
struct Entry : Message {
    Byte tag; Below<Byte, MAX_ACTIONS> need; Word client = 0, number = 0; Stamp seen, stamp; Results results;
    Entry(Byte tag = SENT, Message message = {}) : Message(std::move(message)), tag(tag) {}
    FIELDS(tag, chain, program, hop, sent, args, numbers, earlier, need, client, number, seen, stamp, results)
};

template <class Encoding, class It> void go_over(Encoding &encoding, It &it) {
    auto fields = [&](auto &...each) { (encoding.field(each), ...); };
    if (it.tag == BEGUN || it.tag == REFUSED) fields(it.client, it.number, it.program, it.args, it.seen);
    if (it.tag == SENT || it.tag == RAN) fields(it.chain, it.program, it.hop, it.sent, it.args, it.numbers, it.earlier);
    if (it.tag == BEGUN) fields(it.chain, it.numbers);
    if (it.tag == REFUSED) fields(it.need);
    if (it.tag != SENT) fields(it.stamp);
    if (it.tag == BEGUN || it.tag == RAN) fields(it.results);
}

struct Writer {
    Byte *at;
    void field(Byte value) { *at++ = value; }
    void field(Word value) { value = htobe64(value), std::memcpy(at, &value, 8), at += 8; }
    template <class Int, Word LIMIT> void field(const Below<Int, LIMIT> &it) { field(it.value); }
    template <class T, Word MOST> void field(const List<T, MOST> &items) {
        field(Byte(items.size()));
        for (const T &it : items) field(it);
    }
    template <class T> auto field(const T &it) -> decltype(void(it.tied())) {
        std::apply([&](auto &...each) { (field(each), ...); }, it.tied());
    }
};

struct Reader {
    const Byte *at, *end;
    void field(Byte &value) { need(at < end, "bad-length"), value = *at++; }
    void field(Word &value) {
        need(end - at >= 8, "bad-length");
        std::memcpy(&value, at, 8), value = be64toh(value), at += 8;
    }
    template <class Int, Word LIMIT> void field(Below<Int, LIMIT> &it) { field(it.value), need(it < LIMIT, "out-of-range"); }
    template <class T, Word MOST> void field(List<T, MOST> &items) {
        Byte count = 0;
        field(count), need(count <= MOST, "out-of-range");
        items.resize(count);
        for (T &it : items) field(it);
        if constexpr (std::is_same_v<T, NumberAt>) {
            auto falls = [](const T &left, const T &right) { return left.server >= right.server; };
            need(count > 0 && std::adjacent_find(items.begin(), items.end(), falls) == items.end(), "out-of-range");
        }
    }
    template <class T> auto field(T &it) -> decltype(void(it.tied())) {
        std::apply([&](auto &...each) { (field(each), ...); }, it.tied());
    }
};

// Adds the encoding of an entry or a message.
inline void append(vector<Byte> &out, const Entry &entry) {
    std::array<Byte, MAX_BODY_BYTES + 5> encoding;
    Writer writer{encoding.data() + 5};
    go_over(writer, entry);
    size_t size = writer.at - encoding.data() - 5;
    encoding[0] = entry.tag, encoding[1] = encoding[2] = 0, encoding[3] = Byte(size >> 8), encoding[4] = Byte(size);
    out.insert(out.end(), encoding.data(), writer.at);
}

// What stands first, and the size of its encoding; none where more bytes have to come.
inline optional<pair<Entry, size_t>> front(const Byte *bytes, size_t left) {
    need(left == 0 || (bytes[0] >= SENT && bytes[0] <= RAN), "bad-tag");
    if (left < 5) return {};
    size_t size = size_t(bytes[1]) << 24 | size_t(bytes[2]) << 16 | size_t(bytes[3]) << 8 | bytes[4];
    need(size <= MAX_BODY_BYTES, "bad-length");
    if (left < size + 5) return {};
    pair found{Entry(bytes[0]), size + 5};
    Reader reader{bytes + 5, bytes + 5 + size};
    go_over(reader, found.first);
    need(reader.at == reader.end, "bad-length");
    return found;
}

// A number, or the place of one: for a key among the arguments, for a value among the names, which are the arguments and the
// results so far.
struct Operand {
    Word number;
    bool is_place = false;
    Operand(Word number, bool is_place = false) : number(number), is_place(is_place) {}
    Word in(const vector<Word> &values) const { return is_place ? values[number] : number; }
};
inline Operand at(Word place) { return {place, true}; }

// A need looks whether a value isn't below another; the other actions touch a cell.
enum class Verb : Byte { get, set, add, sub, need };
struct Action { Verb verb; Operand key_or_left; Operand value = 0; };
struct Hop { Byte server; vector<Action> actions; size_t results; bool is_last_here; };
struct Program { size_t parameters; vector<Hop> hops; vector<Byte> visits; };
struct Shard { Word last; Byte server; };
struct Set { Byte servers; vector<Shard> shards; vector<Program> programs; };

inline Program program(size_t parameters, const vector<pair<Byte, vector<Action>>> &hops) {
    Program made{parameters, {}, {}};
    for (const auto &[server, actions] : hops) {
        size_t results = std::count_if(actions.begin(), actions.end(), [](auto &it) { return it.verb == Verb::get; });
        for (Hop &before : made.hops) before.is_last_here &= before.server != server;
        made.hops.push_back({server, actions, results, true});
    }
    for (const Hop &hop : made.hops)
        if (hop.is_last_here) made.visits.push_back(hop.server);
    std::sort(made.visits.begin(), made.visits.end());
    return made;
}

// The cells of each hop are at the hop's server. Those with a number for a key are so by the set.
inline bool are_keys_placed(const Set &set, const Program &program, const Args &args) {
    auto ends_below = [](const Shard &shard, Word key) { return shard.last < key; };
    for (const Hop &hop : program.hops)
        for (const auto &[verb, key, value] : hop.actions) {
            if (verb == Verb::need || !key.is_place) continue;
            auto shard = std::lower_bound(set.shards.begin(), set.shards.end(), key.in(args), ends_below);
            if (shard->server != hop.server) return false;
        }
    return true;
}

using Cells = std::map<pair<Byte, Word>, Word>;  // By table and key. What isn't there is 0.
using Changes = vector<pair<pair<Byte, Word>, Word>>;
struct Outcome { optional<Byte> refusal; Results results; Changes changes; };

inline void apply(Cells &cells, const Changes &changes) {
    for (const auto &[cell, value] : changes)
        if (value) cells[cell] = value; else cells.erase(cell);
}

// What a hop does with the arguments of its chain and the results of the hops before it. The cells stay as they are.
inline Outcome run(const Hop &hop, const Args &args, const List<Results, MAX_HOPS> &earlier, const Cells &cells) {
    Outcome out;
    vector<Word> names;
    names.reserve(args.size() + earlier.size() * MAX_ACTIONS + hop.results);
    names.assign(args.begin(), args.end());
    for (const Results &results : earlier) names.insert(names.end(), results.begin(), results.end());
    Byte needs = 0;
    for (const auto &[verb, key_or_left, operand] : hop.actions) {
        Word value = operand.in(names);
        if (verb == Verb::need) {
            if (key_or_left.in(names) < value) return {needs, {}, {}};
            needs++;
            continue;
        }
        pair cell{Byte(0), key_or_left.in(args)};
        auto change = std::find_if(out.changes.begin(), out.changes.end(), [&](auto &it) { return it.first == cell; });
        auto kept = cells.find(cell);
        Word held = change != out.changes.end() ? change->second : kept != cells.end() ? kept->second : 0;
        if (verb == Verb::get) {
            names.push_back(held), out.results.push_back(held);
            continue;
        }
        if (change == out.changes.end()) change = out.changes.insert(change, {cell, 0});
        change->second = verb == Verb::set ? value : verb == Verb::add ? held + value : held - value;
    }
    return out;
}

enum class Told : Byte { begun, refused, clash, unknown_program, wrong_origin, arg_count, wrong_shard, full, busy };
struct Answer { Told told; Chain chain{}; Stamp stamp{}; Byte need = 0; Results results{}; bool again = false; };
enum class Came : Byte { done, repeat, dropped, malformed, full };
struct Delivered { Came came; Stamp stamp{}; Results results{}; optional<Message> next{}; };
struct Keeper { vector<Byte> encodings; Cells cells; };

// The message that an entry sends, if it sends one.
inline optional<Message> next_of(const Set &set, const Entry &entry) {
    if (entry.tag == REFUSED || entry.hop + 1u >= set.programs[entry.program].hops.size()) return {};
    Message next = entry;
    next.hop++, next.sent = entry.stamp, next.earlier.push_back(entry.results);
    return next;
}

struct Server {
    const Set *set;
    Byte number;
    optional<Keeper> keeper{};
    vector<Entry> history{};
    Cells cells{};
    std::map<pair<Word, Word>, size_t> requests{};
    std::map<std::tuple<Byte, Word, Byte>, size_t> hops{};
    vector<size_t> chains{};
    std::array<Word, MAX_SERVERS> counters{}, turns{};

    optional<Stamp> next_stamp(Word told) const {
        Word stamp = std::max(history.empty() ? Word(0) : history.back().stamp.value, told) + 1;
        return history.size() < MAX_ENTRIES && stamp < STAMP_LIMIT ? optional<Stamp>(stamp) : std::nullopt;
    }
    const Entry *entry_of(const Chain &chain, Byte hop) const {
        if (hop == 0) return chain.origin == number && chain.index < chains.size() ? &history[chains[chain.index]] : nullptr;
        auto found = hops.find({chain.origin, chain.index, hop});
        return found != hops.end() ? &history[found->second] : nullptr;
    }
    // The entry that keeps the answer to a request.
    const Entry *record_of(const Request &request) const {
        auto found = requests.find({request.client, request.number});
        return found != requests.end() ? &history[found->second] : nullptr;
    }
    void keep(Entry entry, const Changes &changes) {
        if (keeper) append(keeper->encodings, entry), apply(keeper->cells, changes);
        apply(cells, changes);
        history.push_back(std::move(entry));
    }

    Answer begin(Request request, Word seen) {
        pair key{request.client, request.number};
        auto spot = requests.lower_bound(key);
        if (spot != requests.end() && spot->first == key) {
            const Entry &it = history[spot->second];
            if (it.program != request.program || it.args != request.args) return {Told::clash};
            return {it.tag == BEGUN ? Told::begun : Told::refused, it.chain, it.stamp, it.need, it.results, true};
        }
        if (request.program >= set->programs.size()) return {Told::unknown_program};
        const Program &program = set->programs[request.program];
        if (program.hops[0].server != number) return {Told::wrong_origin};
        if (request.args.size() != program.parameters) return {Told::arg_count};
        if (!are_keys_placed(*set, program, request.args)) return {Told::wrong_shard};
        auto stamp = next_stamp(seen);
        if (!stamp) return {Told::full};
        if (turns[number] != chains.size()) return {Told::busy};
        Outcome out = run(program.hops[0], request.args, {}, cells);
        Entry entry(out.refusal ? REFUSED : BEGUN);
        entry.client = request.client, entry.number = request.number, entry.program = request.program;
        entry.args = std::move(request.args), entry.seen = seen, entry.stamp = *stamp, entry.results = out.results;
        entry.need = out.refusal.value_or(0);
        requests.emplace_hint(spot, key, history.size());
        if (!out.refusal) {
            entry.chain = {number, chains.size()};
            entry.numbers.reserve(program.visits.size());
            for (Byte server : program.visits) entry.numbers.push_back({server, counters[server]++});
            turns[number] += program.hops[0].is_last_here;
            chains.push_back(history.size());
        }
        Answer answer{out.refusal ? Told::refused : Told::begun, entry.chain, *stamp, entry.need, std::move(out.results)};
        keep(std::move(entry), out.changes);
        return answer;
    }

    // The message is what a hop here may be sent, of a chain that began as it says.
    bool is_well_formed(const Message &message) const {
        if (message.program >= set->programs.size()) return false;
        const Program &program = set->programs[message.program];
        const auto &[parameters, hops, visits] = program;
        if (message.hop == 0 || message.hop >= hops.size() || hops[message.hop].server != number) return false;
        if (hops[0].server != message.chain.origin || message.args.size() != parameters) return false;
        if (!are_keys_placed(*set, program, message.args)) return false;
        auto is_at = [](const NumberAt &it, Byte server) { return it.server == server; };
        auto fits = [](const Results &gave, const Hop &hop) { return gave.size() == hop.results; };
        const auto &[numbers, earlier] = std::tie(message.numbers, message.earlier);
        if (!std::equal(numbers.begin(), numbers.end(), visits.begin(), visits.end(), is_at)) return false;
        if (!std::equal(earlier.begin(), earlier.end(), hops.begin(), hops.begin() + message.hop, fits)) return false;
        if (message.chain.origin != number) return true;
        const Entry *begun = entry_of(message.chain, 0);
        return begun && begun->program == message.program && begun->args == message.args && begun->numbers == numbers;
    }
    Delivered deliver(Message message) {
        if (!is_well_formed(message)) return {Came::malformed};
        std::tuple<Byte, Word, Byte> key{message.chain.origin, message.chain.index, message.hop};
        auto spot = hops.lower_bound(key);
        if (spot != hops.end() && spot->first == key) {
            const Entry &it = history[spot->second];
            if (!(static_cast<const Message &>(it) == message)) return {Came::malformed};
            return {Came::repeat, it.stamp, it.results, next_of(*set, it)};
        }
        auto own = std::find_if(message.numbers.begin(), message.numbers.end(), [&](auto &it) { return it.server == number; });
        Word &turn = turns[message.chain.origin];
        if (own->number != turn) return {own->number < turn ? Came::malformed : Came::dropped};
        auto stamp = next_stamp(message.sent);
        if (!stamp) return {Came::full};
        const Hop &hop = set->programs[message.program].hops[message.hop];
        Outcome out = run(hop, message.args, message.earlier, cells);
        Entry entry(RAN, std::move(message));
        entry.stamp = *stamp, entry.results = out.results;
        hops.emplace_hint(spot, key, history.size());
        turn += hop.is_last_here;
        keep(std::move(entry), out.changes);
        return {Came::done, *stamp, std::move(out.results), next_of(*set, history.back())};
    }
};

// The server does what these entries tell, each once more.
inline Server replayed(Server server, const vector<Entry> &entries) {
    for (const Entry &it : entries) {
        size_t place = server.history.size();
        if (it.tag == RAN) server.deliver(it);
        else server.begin({it.client, it.number, it.program, it.args}, it.seen);
        need(server.history.size() == place + 1 && server.history[place] == it, "damaged");
    }
    return server;
}

// A server over all that a keeper keeps.
inline Server open(const Set &set, Byte number, Keeper keeper) {
    vector<Entry> entries;
    for (size_t at = 0; at < keeper.encodings.size();) {
        auto found = front(keeper.encodings.data() + at, keeper.encodings.size() - at);
        need(found && found->first.tag != SENT, "damaged");
        entries.push_back(std::move(found->first)), at += found->second;
    }
    Server server = replayed({&set, number}, entries);
    need(server.cells == keeper.cells, "damaged");
    server.keeper = std::move(keeper);
    return server;
}

// All that the servers of a set did, in one order: by stamp, then server.
struct World { vector<Server> servers; vector<pair<Byte, size_t>> order; };

inline World weave(const Set &set, vector<vector<Entry>> histories) {
    World world;
    for (Byte number = 0; number < set.servers; number++) {
        vector<Entry> entries = std::move(histories[number]);
        world.servers.push_back(replayed({&set, number, Keeper{}}, entries));
    }
    for (const Server &server : world.servers)
        for (const Entry &it : server.history) {
            if (it.tag != RAN) continue;
            const Server &before = world.servers[set.programs[it.program].hops[it.hop - 1].server];
            const Entry *sender = before.entry_of(it.chain, it.hop - 1);
            need(sender && next_of(set, *sender) == static_cast<const Message &>(it), "mismatch");
        }
    std::priority_queue<pair<Word, Byte>, vector<pair<Word, Byte>>, std::greater<>> next;
    vector<size_t> places(set.servers);
    auto wait = [&](Byte number) {
        const auto &history = world.servers[number].history;
        if (places[number] < history.size()) next.emplace(history[places[number]].stamp, number);
    };
    for (Byte number = 0; number < set.servers; number++) wait(number);
    while (!next.empty()) {
        Byte number = next.top().second;
        next.pop();
        world.order.emplace_back(number, places[number]++);
        wait(number);
    }
    return world;
}
