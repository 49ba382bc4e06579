"""Models in MiniZinc: FlatZinc read, stated in a workbench, solved, and asked what is to blame.

FlatZinc is what MiniZinc makes of a model for a solver: variables, constraints by name, and a goal.
Each constraint is stated as an expression of the workbench, so each answer is one of its questions.
What a constraint of FlatZinc means is said here, in Python, and believed.
"""
