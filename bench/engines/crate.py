"""Turns a folder of CWLProv into a Provenance Run Crate, in the form in which runcrate writes it: files are named by their SHA-1, actions by their
UUIDs, tools and steps by their ids in the packed document, and a ControlAction for each step belongs to the OrganizeAction of its workflow.

Written after the crates of the profile's pages; runcrate itself was not at hand. It takes tools and workflows, scattered or not, whose inputs and
outputs are files, arrays of files, and texts.
"""
import json
import uuid

PROFILES = ("process", "workflow", "provenance")


def listed(value):
    """Returns a value as a list."""
    return value if isinstance(value, list) else [] if value is None else [value]


def references(names):
    """Returns references to entities: one alone where it is the only one."""
    found = [{"@id": name} for name in dict.fromkeys(names)]
    return found[0] if len(found) == 1 else found


def text_of(value):
    """Returns the text of a member of PROV-JSON."""
    return value["$"] if isinstance(value, dict) else value


class Writer:
    """Makes the entities of a crate of a folder."""

    def __init__(self, folder):
        self.folder, self.entities, self.files = folder, {}, folder / "metadata/provenance"
        graph = json.loads((folder / "workflow/packed.cwl").read_text())["$graph"]
        self.processes = {entry["id"][1:]: entry for entry in graph}
        self.content, self.members, self.names, self.empty = {}, {}, {}, {"cwlprov:None"}
        for path in sorted(self.files.glob("*.cwlprov.json")):
            self.note(json.loads(path.read_text()))
        for identity in self.processes:
            self.describe(identity)
        self.run("primary.cwlprov.json", "main", f"#{uuid.uuid4()}")

    def facts(self, value, member):
        """Yields the entries of a member of PROV-JSON."""
        for parts in value.get(member, {}).values():
            yield from listed(parts)

    def note(self, value):
        """Notes what a file says of entities."""
        for entry in self.facts(value, "specializationOf"):
            self.content[entry["prov:specificEntity"]] = entry["prov:generalEntity"].partition(":")[2]
        for entry in self.facts(value, "hadMember"):
            self.members.setdefault(entry["prov:collection"], {})[entry["prov:entity"]] = True
        for name, parts in value.get("entity", {}).items():
            for part in listed(parts):
                self.names.update({name: part["cwlprov:basename"]} if "cwlprov:basename" in part else {})
                if any(text_of(kind) == "prov:EmptyCollection" for kind in listed(part.get("prov:type"))):
                    self.empty.add(name)

    def entity(self, identity, kind, **members):
        """Adds an entity, or members to one that is there, and returns its name."""
        self.entities.setdefault(identity, {"@id": identity, "@type": kind}).update(members)
        return identity

    def parameter(self, identity):
        """Adds a parameter, and returns its name."""
        return self.entity(f"packed.cwl#{identity}", "FormalParameter", additionalType="File", name=identity.rpartition("/")[2])

    def describe(self, identity):
        """Adds a tool or a workflow with its parameters, its steps and their connections."""
        process, is_flow = self.processes[identity], self.processes[identity]["class"] == "Workflow"
        name = "packed.cwl" if identity == "main" else f"packed.cwl#{identity}"
        kinds = (["File"] if identity == "main" else []) + ["SoftwareSourceCode", "ComputationalWorkflow", "HowTo"]
        ports = {side: [self.parameter(port["id"][1:]) for port in process[f"{side}s"]] for side in ("input", "output")}
        self.entity(name, kinds if is_flow else "SoftwareApplication", name=identity, input=references(ports["input"]), output=references(ports["output"]))
        if is_flow:
            steps = process["steps"]
            tools = [f"packed.cwl#{step['run'][1:]}" for step in steps]
            for position, (step, tool) in enumerate(zip(steps, tools)):
                self.entity(f"packed.cwl{step['id']}", "HowToStep", position=str(position), workExample={"@id": tool},
                            connection=references(self.connections(identity, steps, step)))
            self.entity(name, kinds, hasPart=references(tools), step=references(f"packed.cwl{step['id']}" for step in steps))

    def connections(self, identity, steps, step):
        """Yields the connections that lead to a step."""
        tools = {other["id"]: other["run"] for other in steps}
        for given in step["in"]:
            for source in listed(given.get("source")):
                maker, _, port = source.rpartition("/")
                start = f"packed.cwl{tools[maker]}/{port}" if maker in tools else f"packed.cwl#{identity}/{port}"
                goal = f"packed.cwl{step['run']}/{given['id'].rpartition('/')[2]}"
                yield self.entity(f"#{uuid.uuid4()}", "ParameterConnection", sourceParameter={"@id": start}, targetParameter={"@id": goal})

    def values(self, entity, parameter):
        """Returns the names of what an entity stands for: files by their SHA-1, and texts."""
        if entity in self.empty:
            return []
        if entity in self.members:
            return [name for part in self.members[entity] for name in self.values(part, parameter)]
        digits = self.content.get(entity, entity.partition(":")[2])
        if entity in self.names:
            found = self.entity(digits, "File", sha1=digits, alternateName=self.names[entity])
        else:
            found = self.entity(f"#pv-{digits}", "PropertyValue", name=parameter.rpartition("/")[2], value=(self.folder / "data" / digits[:2] / digits).read_text())
        known = listed(self.entities[found].get("exampleOfWork"))
        self.entities[found]["exampleOfWork"] = known + [{"@id": parameter}] * ({"@id": parameter} not in known)
        return [found]

    def action(self, activity, label, tool, value):
        """Adds the action of an execution."""
        ends = {"used": [], "wasGeneratedBy": []}
        for member, found in ends.items():
            for entry in self.facts(value, member):
                if entry["prov:activity"] == activity:
                    port = text_of(entry["prov:role"]).rpartition("/")[2]
                    found += self.values(entry["prov:entity"], f"packed.cwl#{'main' if tool == 'packed.cwl' else tool.partition('#')[2]}/{port}")
        return self.entity(f"#{activity.rpartition(':')[2]}", "CreateAction", name=label, instrument={"@id": tool}, object=references(ends["used"]),
                           result=references(ends["wasGeneratedBy"]), actionStatus={"@id": "http://schema.org/CompletedActionStatus"})

    def run(self, file, identity, organize):
        """Adds the actions of the steps of a workflow, with those of workflows in it, and returns the name of its own."""
        value, controls, top = json.loads((self.files / file).read_text()), [], None
        plans = {entry["prov:activity"]: entry["prov:plan"] for entry in self.facts(value, "wasAssociatedWith")}
        steps = {step["id"].rpartition("/")[2]: step for step in self.processes[identity]["steps"]}
        for activity, parts in value["activity"].items():
            kinds = {text_of(kind) for part in listed(parts) for kind in listed(part.get("prov:type"))}
            label = next((part["prov:label"] for part in listed(parts) if "prov:label" in part), activity)
            inner = [text_of(text).partition(":")[2] for part in listed(parts) for text in listed(part.get("prov:has_provenance"))]
            if "wfprov:WorkflowRun" in kinds:
                top = top or self.action(activity, label, "packed.cwl" if identity == "main" else f"packed.cwl#{identity}", value)
                continue
            title = plans[activity].rpartition("/")[2]
            step = steps[title if title in steps else title.rpartition("_")[0]]
            names = [self.run(name, step["run"][1:], f"#{uuid.uuid4()}") for name in inner if name.endswith(".json")]
            names = names or [self.action(activity, label, f"packed.cwl{step['run']}", value)]
            controls += [self.entity(f"#{uuid.uuid4()}", "ControlAction", name=f"orchestrate {title}", instrument={"@id": f"packed.cwl{step['id']}"},
                                     object={"@id": name}) for name in names]
        self.entity(organize, "OrganizeAction", name="Run of cwltool", instrument={"@id": "#engine"}, object=references(controls), result={"@id": top})
        return top

    def crate(self):
        """Returns the crate."""
        actions = [name for name, entry in self.entities.items() if entry["@type"] == "CreateAction"]
        files = [name for name, entry in self.entities.items() if entry["@type"] == "File"]
        profiles = [{"@id": f"https://w3id.org/ro/wfrun/{name}/0.5"} for name in PROFILES]
        head = [{"@id": "ro-crate-metadata.json", "@type": "CreativeWork", "conformsTo": [{"@id": "https://w3id.org/ro/crate/1.1"}], "about": {"@id": "./"}},
                {"@id": "./", "@type": "Dataset", "conformsTo": profiles, "hasPart": references(["packed.cwl", *files]),
                 "mainEntity": {"@id": "packed.cwl"}, "mentions": references(actions)},
                {"@id": "#engine", "@type": "SoftwareApplication", "name": "cwltool"}]
        return {"@context": ["https://w3id.org/ro/crate/1.1/context", "https://w3id.org/ro/terms/workflow-run/context"],
                "@graph": head + list(self.entities.values())}
