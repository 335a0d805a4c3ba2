{
    "$graph": [
        {
            "class": "CommandLineTool",
            "baseCommand": "sort",
            "inputs": [
                {
                    "type": "File",
                    "inputBinding": {
                        "position": 1
                    },
                    "id": "#sort.cwl/lines"
                },
                {
                    "type": [
                        "null",
                        "boolean"
                    ],
                    "inputBinding": {
                        "prefix": "-r"
                    },
                    "id": "#sort.cwl/reverse"
                }
            ],
            "stdout": "sorted.txt",
            "id": "#sort.cwl",
            "outputs": [
                {
                    "type": "File",
                    "id": "#sort.cwl/sorted",
                    "outputBinding": {
                        "glob": "sorted.txt"
                    }
                }
            ]
        },
        {
            "class": "Workflow",
            "requirements": [
                {
                    "class": "InlineJavascriptRequirement"
                },
                {
                    "class": "MultipleInputFeatureRequirement"
                },
                {
                    "class": "StepInputExpressionRequirement"
                },
                {
                    "class": "SubworkflowFeatureRequirement"
                }
            ],
            "inputs": [
                {
                    "type": "File",
                    "id": "#main/mutant"
                },
                {
                    "type": "File",
                    "id": "#main/wild"
                }
            ],
            "outputs": [
                {
                    "type": "string",
                    "outputSource": "#main/label/text",
                    "id": "#main/note"
                },
                {
                    "type": "File",
                    "outputSource": "#main/join/joined",
                    "id": "#main/table"
                }
            ],
            "steps": [
                {
                    "run": {
                        "class": "CommandLineTool",
                        "baseCommand": "cat",
                        "inputs": [
                            {
                                "type": {
                                    "type": "array",
                                    "items": "File"
                                },
                                "inputBinding": {
                                    "position": 1
                                },
                                "id": "#main/join/run/tables"
                            }
                        ],
                        "outputs": [
                            {
                                "type": "File",
                                "id": "#main/join/run/joined",
                                "outputBinding": {
                                    "glob": "joined.txt"
                                }
                            }
                        ],
                        "stdout": "joined.txt"
                    },
                    "in": [
                        {
                            "source": [
                                "#main/wild_tally/counts",
                                "#main/mutant_tally/counts"
                            ],
                            "id": "#main/join/tables"
                        }
                    ],
                    "out": [
                        "#main/join/joined"
                    ],
                    "id": "#main/join"
                },
                {
                    "run": {
                        "class": "ExpressionTool",
                        "inputs": [
                            {
                                "type": "File",
                                "id": "#main/label/run/table"
                            }
                        ],
                        "outputs": [
                            {
                                "type": "string",
                                "id": "#main/label/run/text"
                            }
                        ],
                        "expression": "${return {text: inputs.table.basename};}"
                    },
                    "in": [
                        {
                            "source": "#main/wild_tally/ordered",
                            "id": "#main/label/table"
                        }
                    ],
                    "out": [
                        "#main/label/text"
                    ],
                    "id": "#main/label"
                },
                {
                    "run": "#tally.cwl",
                    "in": [
                        {
                            "source": "#main/mutant",
                            "id": "#main/mutant_tally/codons"
                        }
                    ],
                    "out": [
                        "#main/mutant_tally/counts"
                    ],
                    "id": "#main/mutant_tally"
                },
                {
                    "run": "#tally.cwl",
                    "in": [
                        {
                            "source": "#main/wild",
                            "id": "#main/wild_tally/codons"
                        }
                    ],
                    "out": [
                        "#main/wild_tally/counts",
                        "#main/wild_tally/ordered"
                    ],
                    "id": "#main/wild_tally"
                }
            ],
            "id": "#main"
        },
        {
            "class": "Workflow",
            "inputs": [
                {
                    "type": "File",
                    "id": "#tally.cwl/codons"
                }
            ],
            "outputs": [
                {
                    "type": "File",
                    "outputSource": "#tally.cwl/tally/counts",
                    "id": "#tally.cwl/counts"
                },
                {
                    "type": "File",
                    "outputSource": "#tally.cwl/order/sorted",
                    "id": "#tally.cwl/ordered"
                }
            ],
            "steps": [
                {
                    "run": "#sort.cwl",
                    "in": [
                        {
                            "source": "#tally.cwl/codons",
                            "id": "#tally.cwl/order/lines"
                        }
                    ],
                    "out": [
                        "#tally.cwl/order/sorted"
                    ],
                    "id": "#tally.cwl/order"
                },
                {
                    "run": "#uniq.cwl",
                    "in": [
                        {
                            "source": "#tally.cwl/order/sorted",
                            "id": "#tally.cwl/tally/lines"
                        }
                    ],
                    "out": [
                        "#tally.cwl/tally/counts",
                        "#tally.cwl/tally/log"
                    ],
                    "id": "#tally.cwl/tally"
                }
            ],
            "id": "#tally.cwl"
        },
        {
            "class": "CommandLineTool",
            "baseCommand": [
                "uniq",
                "-c"
            ],
            "inputs": [
                {
                    "type": "File",
                    "inputBinding": {
                        "position": 1
                    },
                    "id": "#uniq.cwl/lines"
                }
            ],
            "outputs": [
                {
                    "type": "File",
                    "id": "#uniq.cwl/counts",
                    "outputBinding": {
                        "glob": "counts.txt"
                    }
                },
                {
                    "type": "File",
                    "id": "#uniq.cwl/log",
                    "outputBinding": {
                        "glob": "log.txt"
                    }
                }
            ],
            "stdout": "counts.txt",
            "stderr": "log.txt",
            "id": "#uniq.cwl"
        }
    ],
    "cwlVersion": "v1.2"
}