"""What the tools beside the program share: reading a trace, the states that its entries lead to, and ways to show them.

Nothing here is proved. The judge of a trace is the program's command `check`.
"""
