"""Classes that are told apart by the values of their fields: `dataclass`, `field` and `replace`, of which this package uses a part.

Those of the standard library write the methods of each class as text and compile them while the class is made, and import a compiler
for that. For the classes behind one command this took longer than the command. Here all classes share their methods. To a checker of
types the names are those of the library.
"""
from typing import TYPE_CHECKING

__all__ = ["dataclass", "field", "replace"]

if TYPE_CHECKING:
    from dataclasses import dataclass, field, replace
else:
    REQUIRED = object()

    class Field:
        """How a field is filled where nothing is given for it, and whether it counts where two values are compared."""

        def __init__(self, default_factory=None, compare=True, default=REQUIRED):
            self.made, self.counts, self.default = default_factory, compare, default

        def value(self, name):
            if self.made is not None:
                return self.made()
            if self.default is REQUIRED:
                raise TypeError(f"missing argument: {name!r}")
            return self.default

    field = Field

    class FrozenInstanceError(AttributeError):
        """A field of a value that does not change was set."""

    def given_to(record, values, named):
        """The fields that are given, by their names."""
        fields = record.record_fields
        if len(values) > len(fields):
            raise TypeError(f"{type(record).__name__} has {len(fields)} fields, and {len(values)} values are given")
        given = dict(zip(fields, values))
        for name, value in named.items():
            if name not in fields or name in given:
                raise TypeError(f"{type(record).__name__} has no field {name!r}, or it is given twice")
            given[name] = value
        return given

    class Record:
        """What the classes have for methods. `record_fields` are the fields of a class by their names, in their order, `record_plain` what
        those are that are not given and have one value for that, and `record_others` the names of the others."""

        def __init__(self, *values, **named):
            fields, own = self.record_fields, self.__dict__
            own.update(self.record_plain)
            if values or named:
                own.update(given_to(self, values, named))
            for name in self.record_others:
                if name not in own:
                    own[name] = fields[name].value(name)

        def record_values(self):
            return tuple(getattr(self, name) for name, field in self.record_fields.items() if field.counts)

        def __eq__(self, other):
            if type(other) is not type(self):
                return NotImplemented
            return self.record_values() == other.record_values()

        def __repr__(self):
            return f"{type(self).__qualname__}({', '.join(f'{name}={getattr(self, name)!r}' for name in self.record_fields)})"

    def hash_of(record):
        return hash(record.record_values())

    def must_not_change(record, name, *value):
        raise FrozenInstanceError(f"{type(record).__name__} does not change: {name!r}")

    def dataclass(made=None, *, frozen=False):
        """As a decorator, with or without `frozen`."""
        if made is None:
            return lambda later: dataclass(later, frozen=frozen)
        own = vars(made)
        fields = dict(getattr(made, "record_fields", {}))
        for name in own.get("__annotations__", {}):
            given = own.get(name, REQUIRED)
            fields[name] = given if isinstance(given, Field) else Field(default=given)
            if given is fields[name]:
                delattr(made, name)
        methods = {name: getattr(Record, name) for name in ("__init__", "record_values", "__eq__", "__repr__")}
        methods.update({"__hash__": hash_of, "__setattr__": must_not_change, "__delattr__": must_not_change} if frozen else {"__hash__": None})
        for name, method in methods.items():
            if name not in own or name == "__hash__" and own[name] is None:
                setattr(made, name, method)
        made.record_fields = fields
        made.record_others = tuple(name for name, field in fields.items() if field.made is not None or field.default is REQUIRED)
        made.record_plain = {name: field.default for name, field in fields.items() if name not in made.record_others}
        return made

    def replace(record, **changes):
        """A value with other fields."""
        return type(record)(**{**{name: getattr(record, name) for name in record.record_fields}, **changes})
