"""The JSON objects that a command printed, one a line, checked against their schema."""
import json


def read(schema, path, least):
    """The objects of a file, at least so many; each is one that the schema allows, where jsonschema is installed."""
    with open(schema) as text, open(path) as lines:
        schema, objects = json.load(text), [json.loads(line) for line in lines]
    assert len(objects) >= least, len(objects)
    try:
        import jsonschema
    except ImportError:
        print("the schema was not tried: python3 has no jsonschema")
        return objects
    for it in objects:
        jsonschema.validate(it, schema)
    return objects
