"""Scripts that print times and memory, from the top of the repository: python3 -m bench.requests"""
