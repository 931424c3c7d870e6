# Everything is done by the toolchain's command rt (see README.md).
.PHONY: all demo try test rows planted served hostile dist

# Proves formd and the crates that it stands on, runs it, and leaves it as crates/formd/out/formd.
all:
	cd crates/formd && rt run < stdin

# Shows seven command lines of an order form, each with its reply. This proves nothing.
demo:
	tests/demonstrate.py examples/order.json examples/order.jsonl

# Answers command lines under declarations of your own, over a database in memory, and says where a line is wrong:
# make try DECLARATIONS=form.json < lines. This proves nothing and keeps nothing.
try:
	cd crates/formd && rt try -- rehearse --declarations "$(abspath $(DECLARATIONS))"

# The merge gate: the limits of the house, `rt ci` (every proof from nothing, the must-fail edits, the tests, the programs' runs), and then scripts
# over the programs that it built. A proof a processor where memory holds them; with RT_JOBS=2 two run side by side, one processor each.
test:
	tests/gate.py

# Compares the rows of tests/data/rows with what the program answers that `make` leaves.
rows:
	tests/rows.py

# Tries the wrong bodies that the gate doesn't try: make planted, or make planted NAME=fv_model.
planted:
	tests/planted.sh $(NAME)

# Runs the program that `make` leaves, longer than `make test` does: rows, its words, the manual's examples, declarations over others, files that it can't
# serve, pages of ids, exports, hostile patterns, a hundred kills, files of version 1 and kills while one is migrated, the clients while their processes are
# killed, the forms of examples/, the rental application, what differs from Bean Validation, an intake over PostgreSQL (left out where it or psycopg isn't
# there), the schemas of declarations and of bundles (need jsonschema), and what tools of others make of these.
served: rows
	tests/readme.py
	tests/manual.py
	tests/rehearsal.py
	tests/over.py
	tests/mistakes.py
	tests/words.py
	tests/statuses.py
	tests/pages.py
	tests/export.py
	tests/matchers.py
	tests/writes.py
	tests/clocks.py
	tests/kills.py
	tests/migration.py
	tests/clients.py
	tests/examples.py
	tests/rental.py
	tests/differences.py
	tests/judge.py
	tests/postgres.py
	tests/schema.py
	tests/schemas.py
	tests/generators.py

# Treats formd as an enemy or a bad machine would: each request for memory refused, also of openings by themselves, files and streams
# stopped at each call, files that can't be served, kills, bytes that aren't what was written, the worst inputs within the limits. Prints its
# figures at the end. Makes formd and refused_calls first, with their proofs where these aren't kept; needs gcc and Python.
hostile: all
	cd crates/refused_calls && rt run < stdin > /dev/null
	tests/hostile.py

# Packs the proved program with a manual page, a unit for systemd, documents, clients, examples and checksums into one archive, and looks at it in an empty root.
dist: all
	tests/dist.py
	dist/archive.py
