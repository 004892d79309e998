// serve_postgres FOLDER CLIENTS SECONDS: two-phase commits over two databases of the PostgreSQL whose socket is in FOLDER:
// `postgres` and `template1`, which each has. Each client is a thread with a connection to both, and a transaction adds a row
// to a table in both. Prints the commits a second. With no clients it makes the tables alone.
#include <libpq-fe.h>

#include <atomic>
#include <chrono>
#include <iostream>
#include <string>
#include <thread>
#include <unistd.h>
#include <vector>

static std::atomic<long> done{0};
static std::atomic<bool> over{false};

static void need(bool fine, PGconn *connection) {
    if (fine) return;
    std::cerr << "PostgreSQL: " << PQerrorMessage(connection);
    _exit(1);
}

static PGconn *connected(const std::string &folder, const char *database) {
    PGconn *connection = PQconnectdb(("host='" + folder + "' user=bench dbname=" + database).c_str());
    need(PQstatus(connection) == CONNECTION_OK, connection);
    return connection;
}

static void run(PGconn *connection, const std::string &command) {
    PGresult *result = PQexec(connection, command.c_str());
    need(PQresultStatus(result) == PGRES_COMMAND_OK, connection);
    PQclear(result);
}

static void commit_all(const std::string &folder, int client) {
    PGconn *both[] = {connected(folder, "postgres"), connected(folder, "template1")};
    std::string names[] = {"'first " + std::to_string(client) + "'", "'second " + std::to_string(client) + "'"};
    for (; !over; done++) {
        for (int at : {0, 1}) run(both[at], "BEGIN; INSERT INTO added VALUES (1); PREPARE TRANSACTION " + names[at]);
        for (int at : {0, 1}) run(both[at], "COMMIT PREPARED " + names[at]);
    }
}

int main(int argc, char **argv) {
    if (argc != 4) return 2;
    std::vector<std::thread> threads;
    for (int client = 0; client < atoi(argv[2]); client++) threads.emplace_back(commit_all, argv[1], client);
    if (threads.empty()) {
        for (const char *database : {"postgres", "template1"})
            run(connected(argv[1], database), "CREATE TABLE added (number int)");
        return 0;
    }
    usleep(500000);
    long before = done;
    auto start = std::chrono::steady_clock::now();
    usleep(1000000 * atof(argv[3]));
    std::chrono::duration<double> passed = std::chrono::steady_clock::now() - start;
    std::cout << (done - before) / passed.count() << std::endl;
    over = true;
    for (auto &thread : threads) thread.join();
}
