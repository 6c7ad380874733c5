/* Kills the player at random moments, and holds what is left to the game's own list of writes:
 *
 *     kill PLAYER FOLDER ROUNDS SEED
 *
 * After each kill hero.sav must be the save as the last start found or left it, hero.journal the mark and the records of the writes since, and recovery over
 * both must give the save after exactly as many of the game's writes as these files hold, no fewer than the player had reported. The expected bytes are made
 * from the list alone. Then the journal is cut at random places, and recovery must give the save after the last write whose record is whole. Before the first
 * start a version before 3.0 has played: its journal, of records of three bytes, is what the player finds. */
#define _POSIX_C_SOURCE 200809L
#include "../example/game.h"
#include "record.h"
#include <pouch_bus.h>
#include <fcntl.h>
#include <poll.h>
#include <signal.h>
#include <stdio.h>
#include <stdlib.h>
#include <string.h>
#include <sys/wait.h>
#include <time.h>

enum { JOURNAL_MAX = 4 << 20, CUTS = 20, LONGEST_MS = 100, PATIENCE_MS = 60000, OLD_WRITES = 5000 };

static uint8_t save[SAVE_LEN + 1], expected[SAVE_LEN], records[JOURNAL_MAX + POUCH_RECORD_LEN] = POUCH_JOURNAL_MARK, journal[JOURNAL_MAX];
static const char *folder;
static uint64_t seed;

/* Two states of the files are told apart: the save file holds the game's first `saved` writes, and in truth it has made `made`. */
static uint32_t saved, made;

static void require(bool holds, const char *what)
{
    if (holds)
        return;
    fprintf(stderr, "kill: %s (%u writes in the save file, %u made)\n", what, (unsigned)saved, (unsigned)made);
    exit(1);
}

/* Below `end`: Knuth's multiplier, upper bits. */
static uint32_t random_below(uint32_t end)
{
    seed = seed * 6364136223846793005u + 1442695040888963407u;
    return (uint32_t)(seed >> 33) % end;
}

static long long now_ms(void)
{
    struct timespec t;
    clock_gettime(CLOCK_MONOTONIC, &t);
    return t.tv_sec * 1000LL + t.tv_nsec / 1000000;
}

static size_t load(const char *name, uint8_t *bytes, size_t len)
{
    char path[4096];
    snprintf(path, sizeof path, "%s/%s", folder, name);
    FILE *file = fopen(path, "rb");
    if (file == NULL)
        return 0;
    size_t n = fread(bytes, 1, len, file);
    fclose(file);
    return n;
}

/* Whether bytes are the save after the game's first `count` writes. */
static bool is_save_after(const uint8_t *bytes, uint32_t count)
{
    memset(expected, 0, sizeof expected);
    for (uint32_t i = 0; i < count; i++)
        expected[game_at(i)] = game_value(i);
    return memcmp(bytes, expected, sizeof expected) == 0;
}

/* How many whole records a journal of this length has. */
static uint32_t records_in(size_t len)
{
    return len < POUCH_JOURNAL_MARK_LEN ? 0 : (uint32_t)((len - POUCH_JOURNAL_MARK_LEN) / POUCH_RECORD_LEN);
}

/* Whether the journal is, byte for byte, the mark and the records of the writes from `from` on; the last may be cut, or the mark. */
static bool is_journal_from(uint32_t from, size_t len)
{
    uint32_t write = from;
    for (size_t i = POUCH_JOURNAL_MARK_LEN; i < len; i += POUCH_RECORD_LEN, write++)
        put_record(records + i, game_at(write), game_value(write));
    return memcmp(journal, records, len) == 0;
}

/* What a version before 3.0 left behind: an empty save, and a journal of records of three bytes. Where it could not have played this game, nothing. */
static void play_before(void)
{
    char path[4096];
    uint8_t record[POUCH_OLD_RECORD_LEN];
    if (SAVE_LEN > POUCH_SAVE_LEN_CODE_3)
        return;
    snprintf(path, sizeof path, "%s/hero.journal", folder);
    FILE *file = fopen(path, "wb");
    require(file != NULL, "hero.journal of a version before");
    for (; made < OLD_WRITES; made++) {
        put_old_record(record, game_at(made), game_value(made));
        require(fwrite(record, sizeof record, 1, file) == 1, "hero.journal of a version before");
    }
    require(fclose(file) == 0, "hero.journal of a version before");
}

/* Whether the journal is still the one of that version. */
static bool is_journal_before(size_t len)
{
    uint8_t record[POUCH_OLD_RECORD_LEN];
    if (saved != 0 || made != OLD_WRITES || len != OLD_WRITES * sizeof record)
        return false;
    for (uint32_t i = 0; i < made; i++) {
        put_old_record(record, game_at(i), game_value(i));
        if (memcmp(journal + i * sizeof record, record, sizeof record) != 0)
            return false;
    }
    return true;
}

/* Runs the player, kills it so many milliseconds after its start or after its first report, and gives the last count that it reported, 0 if none. */
static uint32_t run_and_kill(const char *player, long long ms, bool in_play)
{
    int ends[2];
    require(pipe(ends) == 0, "pipe");
    pid_t child = fork();
    require(child >= 0, "fork");
    if (child == 0) {
        dup2(ends[1], STDOUT_FILENO);
        close(ends[0]);
        close(ends[1]);
        execl(player, player, folder, "1000000", (char *)NULL);
        _exit(127);
    }
    close(ends[1]);
    uint32_t reported = 0, count = 0;
    long long end = now_ms() + (in_play ? PATIENCE_MS : ms), left;
    bool killed = false;
    char text[4096];
    for (;;) {
        struct pollfd output = {.fd = ends[0], .events = POLLIN};
        if (!killed && (left = end - now_ms()) <= 0) {
            kill(child, SIGKILL);
            killed = true;
        }
        if (poll(&output, 1, killed ? -1 : (int)left) <= 0)
            continue;
        ssize_t n = read(ends[0], text, sizeof text);
        if (n <= 0)
            break;
        if (in_play) {
            in_play = false;
            end = now_ms() + ms;
        }
        for (ssize_t i = 0; i < n; i++) {
            if (text[i] != '\n') {
                count = count * 10 + (uint32_t)(text[i] - '0');
                continue;
            }
            reported = count;
            count = 0;
        }
    }
    close(ends[0]);
    int status;
    require(waitpid(child, &status, 0) == child, "waitpid");
    require(killed && WIFSIGNALED(status) && WTERMSIG(status) == SIGKILL, "the player ended by itself");
    return reported;
}

int main(int count, char **words)
{
    if (count != 5) {
        fprintf(stderr, "usage: kill PLAYER FOLDER ROUNDS SEED\n");
        return 2;
    }
    folder = words[2];
    seed = strtoul(words[4], NULL, 10);
    unsigned rounds = (unsigned)strtoul(words[3], NULL, 10), in_play = 0, in_recovery = 0;
    printf("kill: seed %s\n", words[4]);
    fflush(stdout);
    play_before();
    for (unsigned round = 0; round < rounds; round++) {
        uint32_t reported = run_and_kill(words[1], random_below(LONGEST_MS), round % 2 == 1);

        size_t save_len = load("hero.sav", save, sizeof save), len = load("hero.journal", journal, sizeof journal);
        if (is_journal_before(len)) { /* killed in the first recovery: there is no save, or the recovered one */
            require(save_len == 0 || (save_len == SAVE_LEN && is_save_after(save, made)), "hero.sav is neither missing nor new");
            require(reported == 0, "writes are reported before the journal is emptied");
            in_recovery++;
            continue;
        }
        if (save_len == 0)
            require(saved == 0 && made == 0, "hero.sav is gone"); /* killed before the first was there */
        else
            require(save_len == SAVE_LEN, "hero.sav has another length");
        size_t before = POUCH_JOURNAL_MARK_LEN + (size_t)(made - saved) * POUCH_RECORD_LEN;
        bool old_journal = made > saved && len == before && is_journal_from(saved, len);
        if (old_journal) { /* killed before the journal was emptied: the save file is the old or the new one */
            require(is_save_after(save, saved) || is_save_after(save, made), "hero.sav is neither old nor new");
            in_recovery++;
        } else {
            require(is_save_after(save, made), "hero.sav is not the recovered save");
            require(is_journal_from(made, len), "hero.journal is not the list of the writes");
            saved = made;
            made += records_in(len);
            in_play += records_in(len) > 0;
        }
        require(reported <= made, "fewer writes are in the journal than were reported");

        uint8_t recovered[SAVE_LEN];
        memcpy(recovered, save, sizeof recovered);
        require(pouch_bus_recover(recovered, sizeof recovered, journal, len) == POUCH_DONE, "recovery is refused");
        require(is_save_after(recovered, made), "the recovered save is not what the game wrote");
        for (int cut = 0; cut < CUTS && !old_journal; cut++) {
            uint32_t n = random_below((uint32_t)len + 1);
            memcpy(recovered, save, sizeof recovered);
            require(pouch_bus_recover(recovered, sizeof recovered, journal, n) == POUCH_DONE, "recovery of a cut journal is refused");
            require(is_save_after(recovered, saved + records_in(n)), "a cut journal gives another save");
        }
    }
    printf("kill: %u kills, %u in play, %u in recovery; %u save writes, none lost\n", rounds, in_play, in_recovery, (unsigned)made);
    require(in_play >= rounds / 2, "too few kills met the game in play");
    return 0;
}
