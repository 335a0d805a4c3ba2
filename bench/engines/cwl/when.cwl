cwlVersion: v1.2
class: Workflow
doc: Steps that are taken and steps that are not, and what picks among their results in the three ways.
requirements: {InlineJavascriptRequirement: {}, MultipleInputFeatureRequirement: {}}
inputs: {a: File, b: File, yes: boolean, no: boolean}
outputs:
  one: {type: File, outputSource: [skipped/made, taken/made], pickValue: first_non_null}
  only: {type: File, outputSource: [skipped/made, other/made], pickValue: the_only_non_null}
  all: {type: 'File[]', outputSource: [after/made, skipped/log, join/made], pickValue: all_non_null}
steps:
  taken: {run: one.cwl, when: $(inputs.flag), in: {flag: yes, read: a}, out: [made, log]}
  skipped: {run: one.cwl, when: $(inputs.flag), in: {flag: no, read: b}, out: [made, log]}
  other: {run: one.cwl, in: {read: b}, out: [made, log]}
  after: {run: one.cwl, in: {read: {source: [skipped/made, taken/made], pickValue: first_non_null}, second: b}, out: [made, log]}
  join: {run: stamp.cwl, in: {read: {source: [skipped/made, other/made, taken/made], pickValue: all_non_null}}, out: [made]}
