import hermitian
word = bytearray(hermitian.encode(39, [0, 1] + [0] * 37))
word[7] ^= 5
costs = [[0 if symbol == received else 40 for symbol in range(16)] for received in word]
message, report = hermitian.decode_table(39, costs, doubt=0)
print(report)
