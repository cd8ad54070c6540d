"""Times of a built arcv beside other programs: `bench/run` measures, one module an idea."""
