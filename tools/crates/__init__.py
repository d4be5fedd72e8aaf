"""The crates of the product and those beside it: where they stand, repositories of both, programs without a proof."""
