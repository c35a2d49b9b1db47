/* cluster SERVERS THREADS COUNT [ACROSS]: what `lynx_bench cluster` of the same words does, done in C++ with threads: COUNT
   payments by so many threads over servers in memory, ACROSS of 100 times from a server to the next (100 if left out). It
   prints the same line, and tests/bench runs the two in turn.

   Each server (server.hpp) has a mutex, an inbox and a worker thread. Whoever begins a chain puts the message that it sends
   into the inbox of the next server while the lock of the first is taken: so messages come in the order of the history, and
   none is held. The worker takes its inbox as a whole, delivers under its server's lock, and tells the senders, which mark what
   was acknowledged. Inboxes have no bounds and lose nothing, so nothing is sent again. What sessions are told is noted, and
   compared in the end with the histories, which are woven to a world; then an order of all chains is found that explains it.

   c++ -std=c++17 -O2 -pthread -o cluster tests/baselines/cluster.cpp */
#include "server.hpp"
#include <chrono>
#include <condition_variable>
#include <deque>
#include <iostream>
#include <memory>
#include <mutex>
#include <set>
#include <thread>
#include <variant>

using Clock = std::chrono::steady_clock;
struct Load { Byte servers, threads; Word payments; Byte across; };

// Server S pays from the account 1000 S into 1000 S + 1, its own or that of the next server. Of N servers program S pays to the
// next, program N + S within S, and program 2 N + S fills the account.
static Set set_for(Byte servers) {
    Set set{servers, {}, {}};
    vector<Program> moves, seeds;
    for (Byte here = 0; here < servers; here++) {
        Byte next = Byte((here + 1) % servers);
        Word from = here * 1000u, to = next * 1000u + 1;
        vector<Action> takes{{Verb::get, from}, {Verb::need, at(1), at(0)}, {Verb::sub, from, at(0)}}, move = takes;
        move.push_back({Verb::add, from + 1, at(0)});
        set.shards.push_back({here + 1 < servers ? from + 999 : ~Word(0), here});
        moves.push_back(program(1, {{here, move}}));
        set.programs.push_back(servers > 1 ? program(1, {{here, takes}, {next, {{Verb::add, to, at(0)}}}}) : moves[0]);
        seeds.push_back(program(1, {{here, {{Verb::add, from, at(0)}}}}));
    }
    set.programs.insert(set.programs.end(), moves.begin(), moves.end());
    set.programs.insert(set.programs.end(), seeds.begin(), seeds.end());
    return set;
}

// What a session was told: the answer to a request, or what a look at a hop found.
struct Note { Byte server; optional<Request> request; Byte hop; Answer answer; };
struct Session { Word number; Word greatest = 0; vector<Note> notes{}; };

// What servers send each other: a message, or that this hop of a chain was done.
struct Acknowledgement { Chain chain; Byte hop; };
struct Parcel { Byte from; std::variant<Message, Acknowledgement> what; };

// A server with its inbox. Its lock is for it and its marks.
struct Post {
    std::mutex lock;
    Server server;
    vector<bool> acknowledged;  // By place of the history.
    std::mutex inbox_lock;
    std::condition_variable rung;
    std::deque<Parcel> inbox;
    bool stops = false;
    Post(const Set &set, Byte number) : server{&set, number, Keeper{}} {}

    void put(Parcel parcel) {
        std::lock_guard has_inbox(inbox_lock);
        inbox.push_back(std::move(parcel));
        if (inbox.size() == 1) rung.notify_one();
    }
    // Takes all that came; nothing once it stops.
    std::deque<Parcel> take() {
        std::unique_lock has_inbox(inbox_lock);
        rung.wait(has_inbox, [&] { return stops || !inbox.empty(); });
        return std::exchange(inbox, {});
    }
    void stop() {
        std::lock_guard has_inbox(inbox_lock);
        stops = true, rung.notify_one();
    }
};

struct Cluster {
    Set set;
    vector<std::unique_ptr<Post>> posts{};
    vector<std::thread> workers{};

    explicit Cluster(Set made) : set(std::move(made)) {
        for (Byte number = 0; number < set.servers; number++) posts.push_back(std::make_unique<Post>(set, number));
        for (Byte number = 0; number < set.servers; number++) workers.emplace_back([this, number] { work(number); });
    }
    Post &post_of(Byte program, Byte hop) { return *posts[set.programs[program].hops[hop].server]; }

    // The last entry of the server, whose lock is taken, sends what it sends.
    void send_last(Post &post) {
        post.acknowledged.push_back(false);
        if (auto next = next_of(set, post.server.history.back()))
            post_of(next->program, next->hop).put({post.server.number, std::move(*next)});
    }

    Answer begin(Session &session, Request request) {
        need(request.program < set.programs.size(), "unknown program");
        Post &post = post_of(request.program, 0);
        Note note{post.server.number, request, 0, {}};
        std::unique_lock has_server(post.lock);
        size_t place = post.server.history.size();
        note.answer = post.server.begin(std::move(request), session.greatest);
        if (post.server.history.size() > place) send_last(post);
        has_server.unlock();
        session.greatest = std::max<Word>(session.greatest, note.answer.stamp);
        session.notes.push_back(note);
        return std::move(note.answer);
    }

    // Whether that hop of the chain was done, which is noted.
    bool look(Session &session, const Chain &chain, Byte hop) {
        std::unique_lock has_origin(posts[chain.origin]->lock);
        const Entry *begun = posts[chain.origin]->server.entry_of(chain, 0);
        if (!begun || hop >= set.programs[begun->program].hops.size()) return false;
        Post &post = post_of(begun->program, hop);
        has_origin.unlock();
        std::lock_guard has_server(post.lock);
        const Entry *found = post.server.entry_of(chain, hop);
        if (!found) return false;
        session.greatest = std::max<Word>(session.greatest, found->stamp);
        session.notes.push_back({post.server.number, {}, hop, {Told::begun, chain, found->stamp, 0, found->results, true}});
        return true;
    }

    void work(Byte number) {
        Post &post = *posts[number];
        vector<pair<Byte, Acknowledgement>> acknowledgements;
        for (auto inbox = post.take(); !inbox.empty(); inbox = post.take()) {
            std::unique_lock has_server(post.lock);
            for (auto &[from, what] : inbox)
                if (auto *message = std::get_if<Message>(&what)) {
                    acknowledgements.emplace_back(from, Acknowledgement{message->chain, message->hop});
                    Came came = post.server.deliver(std::move(*message)).came;
                    need(came == Came::done || came == Came::repeat, "not delivered");
                    if (came == Came::done) send_last(post);
                } else {
                    const auto &[chain, hop] = std::get<Acknowledgement>(what);
                    const Entry *sender = post.server.entry_of(chain, Byte(hop - 1));
                    need(sender, "not sent");
                    post.acknowledged[sender - post.server.history.data()] = true;
                }
            has_server.unlock();
            for (const auto &[to, acknowledgement] : acknowledgements) posts[to]->put({number, acknowledgement});
            acknowledgements.clear();
        }
    }

    // Stops the workers, and gives what the servers did.
    vector<vector<Entry>> close() {
        for (auto &post : posts) post->stop();
        for (std::thread &worker : workers) worker.join();
        vector<vector<Entry>> histories;
        for (auto &post : posts) histories.push_back(std::move(post->server.history));
        return histories;
    }
};

// What sessions were told stands in the world: each note by an entry, each fresh answer by one of its own, above what its
// session was told before; and all answers of the servers were told.
static void judge(const World &world, const vector<Session> &sessions) {
    std::set<pair<Byte, size_t>> fresh;
    for (const Session &session : sessions) {
        Word greatest = 0;
        for (const auto &[number, request, hop, answer] : session.notes) {
            const Server &server = world.servers[number];
            const Entry *entry = request ? server.record_of(*request) : server.entry_of(answer.chain, hop);
            need(entry && (!request || (entry->program == request->program && entry->args == request->args)), "told");
            need((answer.told == Told::refused) == (entry->tag == REFUSED) && entry->need == answer.need, "told");
            need(entry->chain == answer.chain && entry->stamp == answer.stamp && entry->results == answer.results, "told");
            if (request && !answer.again)
                need(answer.stamp > greatest && fresh.emplace(number, entry - server.history.data()).second, "told");
            greatest = std::max<Word>(greatest, answer.stamp);
        }
    }
    for (const Server &server : world.servers)
        for (const Entry &it : server.history)
            need(it.tag == RAN || fresh.count({server.number, &it - server.history.data()}), "uncounted");
}

// Finds an order of all chains that explains the world: each stands before those that touch a cell after it in a way that
// doesn't commute with its own. Of those that may come next the one comes that began first.
static void explain(const World &world) {
    // Touches of a cell that commute are a stretch. From the one before goes an edge to each chain, by way of a joint if it has
    // more chains than one.
    struct Stretch { int kind = 0; optional<size_t> from{}; vector<size_t> chains{}; };
    std::map<Word, Stretch> stretches;
    vector<vector<size_t>> numbers(MAX_SERVERS), after;
    size_t count = 0, began = 0, picked = 0;
    for (const Server &server : world.servers) count += server.chains.size();
    after.resize(count);
    for (const auto &[number, place] : world.order) {
        const Entry &it = world.servers[number].history[place];
        if (it.tag == BEGUN) numbers[it.chain.origin].push_back(began++);
        if (it.tag == REFUSED) continue;
        size_t chain = numbers[it.chain.origin][it.chain.index];
        for (const auto &[verb, key, value] : world.servers[number].set->programs[it.program].hops[it.hop].actions) {
            if (verb == Verb::need) continue;
            int kind = verb == Verb::get ? 1 : verb == Verb::set ? 2 : 3;
            auto &[last, from, chains] = stretches[key.in(it.args)];
            if (kind != last || verb == Verb::set) {
                if (!chains.empty()) from = chains.size() == 1 ? chains[0] : after.size();
                if (chains.size() > 1) after.emplace_back();
                for (size_t before : chains)
                    if (before != *from) after[before].push_back(*from);
                last = kind, chains.clear();
            }
            if (from && *from != chain) after[*from].push_back(chain);
            chains.push_back(chain);
        }
    }
    vector<size_t> waits(after.size()), nodes;
    for (const auto &targets : after)
        for (size_t node : targets) waits[node]++;
    std::priority_queue<size_t, vector<size_t>, std::greater<>> free;
    for (size_t chain = 0; chain < count; chain++)
        if (waits[chain] == 0) free.push(chain);
    for (; !free.empty(); picked++)
        for (nodes.assign(1, free.top()), free.pop(); !nodes.empty();) {
            size_t node = nodes.back();
            nodes.pop_back();
            for (size_t next : after[node])
                if (--waits[next] == 0) next < count ? free.push(next) : nodes.push_back(next);
        }
    need(picked == count, "cycle");
}

// Client C of T pays from the servers C, C + T and so on in turn.
static Byte origin_of(const Load &load, Word number, Byte client) {
    Word homes = client < load.servers ? (load.servers - client + load.threads - 1) / load.threads : 1;
    return Byte((client + load.threads * (number % homes)) % load.servers);
}

static Chain begin_now(Cluster &cluster, Session &session, Word number, size_t program, Word amount) {
    Answer answer = cluster.begin(session, {session.number, number, Byte(program), {amount}});
    need(answer.told == Told::begun && !answer.again, "a chain wasn't begun");
    return answer.chain;
}

static void pay(Cluster &cluster, Session &session, const Load &load, Byte client, Word first, Word last) {
    for (Word number = first; number < last; number++) {
        bool is_across = number % 100 * load.across % 100 < load.across;
        begin_now(cluster, session, number, origin_of(load, number, client) + (is_across ? 0 : load.servers), 1);
    }
}

static void carry(const Load &load) {
    Cluster cluster(set_for(load.servers));
    vector<Session> sessions;
    for (Word number = 0; number <= load.threads; number++) sessions.push_back({number});
    for (Byte server = 0; server < load.servers; server++)
        begin_now(cluster, sessions[0], server, 2 * load.servers + server, load.payments + 1);
    auto first = Clock::now();
    vector<std::thread> payers;
    Word given = 0;
    for (Byte client = 0; client < load.threads; client++) {
        Word from = given;
        given += (load.payments - given) / (load.threads - client);
        payers.emplace_back([&, client, from, given] { pay(cluster, sessions[client + 1], load, client, from, given); });
    }
    for (std::thread &payer : payers) payer.join();
    auto begun = Clock::now();
    // The last of each origin: the next server runs the hops of one origin in their order, so then all are done.
    vector<Chain> last;
    for (Byte server = 0; server < load.servers; server++)
        last.push_back(begin_now(cluster, sessions[0], load.servers + server, server, 1));
    for (const Chain &chain : last)
        while (!cluster.look(sessions[0], chain, load.servers > 1)) std::this_thread::sleep_for(std::chrono::milliseconds(1));
    auto done = Clock::now();
    World world = weave(cluster.set, cluster.close());
    judge(world, sessions);
    auto closed = Clock::now();
    explain(world);
    auto explained = Clock::now();
    Word sum = 0;
    for (const Server &server : world.servers)
        for (const auto &[cell, value] : server.cells) sum += value;
    need(sum == (load.payments + 1) * load.servers, "the cells don't hold what was seeded");
    auto millis = [](auto time) { return std::chrono::duration_cast<std::chrono::milliseconds>(time).count(); };
    auto rate = [&](auto time) { return Word(load.payments / std::max(std::chrono::duration<double>(time).count(), 1e-6)); };
    std::cout << "begun " << load.payments << " in " << millis(begun - first) << " ms, done " << millis(done - first)
              << " ms, closed " << millis(closed - done) << " ms, explained " << millis(explained - closed) << " ms: "
              << rate(begun - first) << " begins and " << rate(done - first) << " chains a second\n";
}

int main(int count, char **words) {
    unsigned long asked[] = {0, 0, 0, 100};
    for (int place = 1; place < count && place < 5; place++) asked[place - 1] = std::strtoul(words[place], nullptr, 10);
    const auto &[servers, threads, payments, across] = asked;
    if (count < 4 || count > 5 || servers < 1 || servers > MAX_SERVERS || threads < 1 || threads > 255 || across > 100) {
        std::cerr << "cluster: servers (1 to 16), threads (1 to 255), a count, and if not 100, how many of 100 go across\n";
        return 2;
    }
    carry({Byte(servers), Byte(threads), payments, Byte(across)});
    return 0;
}
