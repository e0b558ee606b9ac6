# make run     plays a sample schedule on the bench (which is proved and built first, if it is not there)
# make test    the whole gate
# make speed   instructions per event, wall time and memory of the bench and of the second program

SAMPLE = samples/three_belts.txt
BENCH = crates/bench/out/bench

.PHONY: run test speed count

run: $(BENCH)
	tools/schedule $(SAMPLE) | $(BENCH)

$(BENCH): crates.txt $(shell find crates -path '*/out' -prune -o \( -name '*.rt' -o -name '*.antt' \) -print)
	@echo "proving and building the bench"
	@cd crates/bench && said=$$(rt run <stdin 2>&1) || { echo "$$said"; exit 1; }
	@touch $(BENCH)

test:
	bash .ci/run

speed: $(BENCH)
	tools/speed

count:
	tools/count
