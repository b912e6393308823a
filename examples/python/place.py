"""Finds the package where this repository has it, and the models of examples/models."""
import sys
from pathlib import Path

TOP = Path(__file__).resolve().parents[2]
MODELS = TOP / "examples" / "models"
sys.path.insert(0, str(TOP / "clients" / "python"))
