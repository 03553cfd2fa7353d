"""The pages of docs/ and README: their parts that are written, their links and words, and what they cite."""
